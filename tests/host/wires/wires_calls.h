/* The calls of the wires, made on the library and on the model, and the comparison of everything that
 * they give and change.
 *
 * Each side has its own state, samples, events and two numbers. The samples may not be changed, nor the
 * events beyond what the call says. */
#ifndef WIRES_CALLS_H
#define WIRES_CALLS_H

#include "buffers.h"
#include "lines.h"
#include "report.h"

#include <stddef.h>
#include <stdint.h>

enum { STATE_LEN = 5, MOST_WORDS = 8, MOST_ROOM = MOST_TOLD + 2 };

enum { W_UNCLEAR, W_LAST, W_STAGE, W_BITS, W_VALUE };

enum { BAD_STATE = 2, BAD_SAMPLE = 14, NO_ROOM = 15 };

/* What a call gave. The events are those of the library, up to the next call. */
struct fed {
    uint64_t result, consumed, written;
    const uint16_t *events;
};

void wires_calls_start(void);

/* The largest allowed value of a word. */
uint64_t state_limit(size_t word);

/* Gives both sides a state of this many words. words has MOST_WORDS. */
void lend_state(const uint64_t *words, size_t state_len);

/* Makes the call for the state before the first sample on both sides, in a lent buffer of this many
 * words with noise in it, and compares. It gives the common result. */
uint64_t compare_start(size_t state_len);

/* The same with the right length. */
void start_again(void);

/* The library's state as it is now, and whether it is this one. */
void state_now(uint64_t *words);
void expect_state(const uint64_t *words);

/* Makes the call on both sides, with the states as they are and room for this many events. */
struct fed compare_wires(const uint8_t *samples, size_t samples_len, size_t room);

/* The same; fails unless this is what is given. */
struct fed expect_wires(const uint8_t *samples, size_t samples_len, size_t room, uint64_t result,
                        uint64_t consumed, uint64_t written);

/* The same; fails unless the call is refused with nothing consumed and the state as it was. */
void expect_refused(const uint8_t *samples, size_t samples_len, size_t room, uint64_t result);

#endif
