/* The words of a chip's record, in their order, and the sizes of its memories and of the glass. */
#ifndef WORDS_H
#define WORDS_H

enum { COLUMNS = 101, BANKS = 17, PLACES = COLUMNS * BANKS };

/* A byte of the memory holds the pixels of four rows, one of the last bank those of three. */
enum { ROWS = 67, ROWS_OF_A_BANK = 4, PIXELS = ROWS * COLUMNS, VALUES = 4 };

enum word {
    H, DO, PD, V, D, E, MX, MY, PS, X, Y, BS, BSH, DP, PRS, HVE, S, TC, SM, VOP,
    GR, GS0, GS1, GS2, GS3, DOF, DM, EC, OC,
    SA, TR, LAST_RS, PHASE, PHASE_RS,
    PIXELS_0, PIXELS_1, PIXELS_2, PIXELS_3, WORDS
};

#endif
