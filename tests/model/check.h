/* What the checks of the model itself share: a chip in the buffers of a host, and what must hold. */
#ifndef CHECK_H
#define CHECK_H

#include "words.h"

#include <stdbool.h>
#include <stdint.h>

/* One word more than a record has: the random records come with noise behind them. */
struct chip {
    uint64_t record[WORDS + 1];
    uint8_t memory[PLACES];
    uint64_t writers[PLACES];
    uint64_t count;
};

/* Ends the program if it does not hold. */
void require(bool holds, const char *what);

bool equal_chips(const struct chip *one, const struct chip *other);

/* Whether the record holds these counts of pixels. */
bool has_counts(const uint64_t *record, const uint64_t *right);

/* The counts of pixels, by known answers. Gives how many calls it made. */
unsigned long long check_counts(void);

#endif
