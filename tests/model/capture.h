/* Captures played on a chip, from the paper alone. A capture is read once, from front to end, and
 * may be of any length. */
#ifndef CAPTURE_H
#define CAPTURE_H

#include "words.h"

#include <stdint.h>
#include <stdio.h>

/* The chip after a capture. It begins after reset with memories of zeros, and with a counting start. */
struct played {
    uint64_t record[WORDS];
    uint8_t memory[PLACES];
    uint64_t writers[PLACES];
    uint64_t count;
};

/* Gives 0, or the number of the first bad line. After a bad line the rest is not read. */
uint64_t play_capture(FILE *file, struct played *played);

/* Is told of an event that was played: the record before it, the chip after it, and the answer. */
typedef void told(const uint64_t *before, const struct played *after, unsigned event,
                  uint64_t answer);

/* The same, but each event is told of as soon as its line is there, before more is read. */
uint64_t play_events(FILE *file, struct played *played, told *tell);

#endif
