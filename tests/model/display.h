/* The chip while it works, and what a display byte does to it and to its counts of pixels. */
#ifndef DISPLAY_H
#define DISPLAY_H

#include "words.h"

#include <stdbool.h>
#include <stdint.h>

/* Every word of the record fits 16 bits. */
struct chip {
    uint16_t now[WORDS];
    uint64_t count;
    uint8_t *memory;
    uint64_t *writers;
};

/* The pixels of the byte that stands in the place leave, those of the byte that is stored join. Gives
 * whether a record may hold the counts that come of it; if not, they stay as they are. */
bool mend_counts(struct chip *chip, uint8_t byte);

/* Stores the byte with the number of its event, and moves the address on. The counts are as they are. */
uint64_t take_display_byte(struct chip *chip, uint8_t byte);

#endif
