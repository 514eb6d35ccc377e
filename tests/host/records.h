/* Records for the tests, and random numbers that are the same at every run. */
#ifndef RECORDS_H
#define RECORDS_H

#include <stddef.h>
#include <stdint.h>

/* The words that the tests speak of by name. */
enum {
    W_H = 0, W_DO = 1, W_PD = 2, W_V = 3, W_D = 4, W_E = 5, W_MX = 6, W_MY = 7, W_PS = 8,
    W_X = 9, W_Y = 10, W_DP = 13, W_SM = 18, W_GR = 20, W_GS0 = 21, W_DOF = 25, W_OC = 28,
    W_PINS = 29, W_STATUS = 30, W_LAST_RS = 31, W_PHASE = 32, W_PHASE_RS = 33, W_PIXELS_0 = 34
};

enum { PHASES = 10, LAST_PAGE = 4, WRITE_MODES = 8, PIXEL_VALUES = 4, ALL_PIXELS = 6767 };

/* Every phase, those that have an RS once with each. */
struct bus_phase {
    uint64_t phase;
    uint64_t rs;
};

extern const struct bus_phase bus_phases[PHASES];

/* The largest allowed value of a word. */
uint64_t word_limit(size_t word);
const char *word_name(size_t word);

uint64_t random64(void);

/* 0 up to, but not, bound. */
uint64_t below(uint64_t bound);

/* Each fills MOST_WORDS words; the one after the record is noise. The counts of pixels are those of a
 * memory of zeros; all at their limit; and, of a random record, far enough from both ends for 500 display
 * bytes, but true of no memory. */
void reset_record(uint64_t *words, uint64_t pins);
void full_record(uint64_t *words);
void random_record(uint64_t *words);

/* An event count of any size that leaves room for an event. */
uint64_t random_count(void);

void set_phase(uint64_t *words, const struct bus_phase *phase);

/* One of the mixtures of MX, V and DO: how display bytes are written. */
void set_write_mode(uint64_t *words, unsigned mode);

/* Adds the pixels of a byte in this place of a memory to the counts of their values. */
void add_pixels(uint64_t *counts, size_t place, uint8_t byte);

/* The counts of pixels become those of this memory, 1,717 bytes, counted afresh. */
void set_pixels(uint64_t *words, const uint8_t *memory);

/* A number that is no bus event. */
uint16_t unlisted_event(void);

#endif
