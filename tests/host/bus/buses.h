/* Buses for the tests: four random chips that may stand on one bus together. */
#ifndef BUSES_H
#define BUSES_H

#include "bus_calls.h"
#include "records.h"

/* How four chips may stand: 0 all idle, 1 all awaiting an address, 2 all ignoring, from there on one
 * of them past its address, in each phase that this can be, and the others ignoring. */
enum { PAST_PHASES = 7, STANDINGS = 3 + CHIPS * PAST_PHASES };

/* The phase of a chip where the four stand so. */
struct bus_phase phase_in(unsigned standing, size_t chip);

/* Four random records that stand so, with the pins 0 to 3 in any order. */
void random_records(uint64_t words[CHIPS][MOST_WORDS], unsigned standing);

/* Gives these records to both sides. */
void set_records(uint64_t words[CHIPS][MOST_WORDS]);

/* The same, of random records and a random count. */
void random_bus(unsigned standing);

/* The same, with true counts of pixels: no display byte is refused. */
void random_true_bus(unsigned standing);

/* The chip that has these pins now. */
size_t chip_of(uint64_t pins);

/* Number after number that a chip's pins might be cut to, and other numbers. */
enum { ODD_PINS = 20 };
extern const uint64_t odd_pins[ODD_PINS];

#endif
