/* The chip's calls: reset, counting start, step and run, made on the library and on the model, and the
 * comparison of everything they give and change.
 *
 * Each side has its own record, memory, writers, count, events, numbers of a run and of a counting start. */
#ifndef HARNESS_H
#define HARNESS_H

#include "buffers.h"
#include "report.h"

#include <stdbool.h>
#include <stddef.h>
#include <stdint.h>

enum {
    PLACES = 1717, FIRST_OF_LAST_BANK = 1616, MOST_PLACES = PLACES + 1,
    RECORD_LEN = 38, MOST_WORDS = RECORD_LEN + 1,
    MOST_EVENTS = 80000
};

/* What a step answers: nothing, or, to a byte from the master, one of the others. */
enum { NOTHING = 256, ACK, NACK, COMMAND_TAKEN, COMMAND_UNKNOWN, COMMAND_OUT_OF_RANGE };

/* The numbers that a run sets. */
struct ran {
    uint64_t done, unknown, out_of_range;
};

/* The record, the memories and the count, kept aside. */
struct state {
    uint64_t record[MOST_WORDS];
    uint8_t memory[MOST_PLACES];
    uint64_t writers[MOST_PLACES];
    uint64_t count;
};

void harness_start(void);

/* Lends buffers of these lengths to both sides, memory and writers with random contents. */
void lend(size_t record_len, size_t memory_len, size_t writers_len, enum where where);

/* Lends buffers of the right lengths, by turns at the start and at the end of their pages. */
void lend_usual(void);

/* Gives both sides this record, as many words as the lent one has, and a random count. words has
 * MOST_WORDS words. */
void set_record(const uint64_t *words);

/* Gives both sides this count. */
void set_count(uint64_t count);

/* Puts a byte into the memory of both sides. */
void set_byte(size_t place, uint8_t byte);

/* Puts this byte into every place, and another one into those of bank 16. */
void fill_memory(uint8_t byte, uint8_t of_last_bank);

/* Gives both sides the counts of pixels that are true of their memory, counted afresh. */
void set_true_pixels(void);

/* Fails unless the counts of pixels are true of the memory, counted afresh. */
void expect_true_pixels(void);

/* A word of the record as it is now. */
uint64_t word_now(size_t place);

/* Keeps the record, the memories and the count as they are now, and gives them back to both sides. */
void save(struct state *state);
void restore(const struct state *state);

/* Fails unless record, memories and count are now as in this state; what says what should have held. */
void expect_state(const char *what, const struct state *state);

/* Fails unless a call gave the right number. */
void expect_result(const char *what, uint64_t result, uint64_t right);

/* Fails unless the numbers of a run are the right ones. */
void expect_ran(const char *what, const struct ran *ran, const struct ran *right);

/* Make the call on both sides and compare. They give the common result. counts: what the counting start
 * gave, of four values. */
uint64_t compare_reset(uint64_t pins);
uint64_t compare_counts(uint64_t *counts);
uint64_t compare_step(uint16_t event);
uint64_t compare_run(const uint16_t *events, size_t events_len, struct ran *ran);

#endif
