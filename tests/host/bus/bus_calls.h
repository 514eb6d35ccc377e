/* The call of the bus, made on the library and on the model, and the comparison of everything that it
 * gives and changes.
 *
 * Each side has the twelve buffers of four chips and a count, thirteen in all. By turns the library is
 * called by pcf8820_bus_step and by pcf8820_bus. */
#ifndef BUS_CALLS_H
#define BUS_CALLS_H

#include "buffers.h"
#include "report.h"

#include <stdbool.h>
#include <stddef.h>
#include <stdint.h>

enum {
    CHIPS = 4,
    PLACES = 1717, MOST_PLACES = PLACES + 1,
    RECORD_LEN = 38, MOST_WORDS = RECORD_LEN + 1
};

enum { START = 256, STOP, READ_ACK, READ_NACK, RESET_PULSE, SENSOR = 512 };

enum { NOTHING = 256, ACK, NACK, COMMAND_TAKEN, BYTE_READ = 512 };

enum {
    BAD_MEMORY = 1, BAD_RECORD = 2, BAD_EVENT = 3, COUNT_FULL = 4, BAD_BUS = 12, BAD_PINS = 13,
    BAD_PIXEL_COUNT = 16
};

/* The lengths of one chip's buffers. */
struct lengths {
    size_t record, memory, writers;
};

extern const struct lengths good_lengths;

/* One chip's buffers, and all that a bus is, kept aside. */
struct chip_state {
    uint64_t record[MOST_WORDS];
    uint8_t memory[MOST_PLACES];
    uint64_t writers[MOST_PLACES];
};

struct bus_state {
    struct chip_state chip[CHIPS];
    uint64_t count;
};

void bus_start(void);

/* Lends buffers of these lengths to both sides, one element too long at most, with random memories. */
void bus_lend(const struct lengths lengths[CHIPS], enum where where);

/* Lends buffers of the right lengths, by turns at the start and at the end of their pages. */
void bus_lend_usual(void);

/* Gives both sides this record for a chip, as many words as the lent one has. words has MOST_WORDS. */
void bus_record(size_t chip, const uint64_t *words);
void bus_count(uint64_t count);

/* Puts a byte into a chip's memory on both sides. */
void bus_byte(size_t chip, size_t place, uint8_t byte);

/* Gives both sides the counts of pixels that are true of each chip's memory, counted afresh. */
void bus_true_pixels(void);

/* Fails unless the counts of pixels of each chip are true of its memory, counted afresh. */
void expect_true_pixels(void);

/* A word of a chip's record, and the count, as they are now. */
uint64_t bus_word(size_t chip, size_t word);
uint64_t bus_count_now(void);

/* Keeps everything as it is now, and gives it back to both sides. */
void bus_save(struct bus_state *state);
void bus_restore(const struct bus_state *state);

/* Whether a chip is in both states alike, as far as buffers of the right lengths go. */
bool equal_chips(const struct chip_state *one, const struct chip_state *other);

/* Makes the call on both sides and compares. It gives the common result. */
uint64_t compare_bus(uint16_t event, uint64_t pins);

/* The same; fails unless this is the result, and, if it is a refusal, nothing is changed. */
void expect_bus(uint16_t event, uint64_t pins, uint64_t right);

/* Fails unless the canaries round every buffer are whole. They are looked at now and then while calls
 * are compared: what is written over one stays. */
void bus_canaries(void);

#endif
