/* The order of the refusals: 1, 2, 12, 3, 13, 4, 16. Every set of faults at once, each fault of any chip
 * and of any kind; the first in this order is the one that is given. 16 is a fault of a display byte, so
 * that it is never there with 3 and 13, which are of other events. */
#include "buses.h"
#include "themes.h"

#include <string.h>

enum { UNFIT_BYTE = 0xFF };

/* The faults, in the order in which they are looked for. */
enum { MEMORY, RECORD, BUS, EVENT, SENSOR_PINS, COUNT, PIXEL_COUNT, FAULTS };

static const uint64_t refusals[FAULTS] = {
    BAD_MEMORY, BAD_RECORD, BAD_BUS, BAD_EVENT, BAD_PINS, COUNT_FULL, BAD_PIXEL_COUNT
};

static bool has(unsigned faults, unsigned fault)
{
    return faults >> fault & 1;
}

static void lend_for(unsigned faults)
{
    struct lengths lengths[CHIPS] = { good_lengths, good_lengths, good_lengths, good_lengths };
    struct lengths *of = &lengths[below(CHIPS)];
    size_t odd = below(2) ? PLACES - 1 : PLACES + 1;
    if (has(faults, MEMORY) && below(2))
        of->memory = odd;
    else if (has(faults, MEMORY))
        of->writers = odd;
    of = &lengths[below(CHIPS)];
    if (has(faults, RECORD) && below(3) == 0)
        of->record = below(2) ? RECORD_LEN - 1 : RECORD_LEN + 1;
    bus_lend(lengths, below(2) ? AT_START : AT_END);
}

/* Two chips with the same pins, or one whose phase does not fit the others'. */
static void misfit(uint64_t words[CHIPS][MOST_WORDS])
{
    size_t chip = (size_t)below(CHIPS);
    size_t other = (chip + 1 + (size_t)below(CHIPS - 1)) % CHIPS;
    if (below(2)) {
        words[chip][W_PINS] = words[other][W_PINS];
        return;
    }
    for (size_t c = 0; c < CHIPS; c++)
        set_phase(words[c], &bus_phases[2]);
    set_phase(words[chip], &bus_phases[below(2) ? 0 : 1]);
    set_phase(words[other], &bus_phases[3 + below(PAST_PHASES)]);
}

/* One chip awaits display bytes. In its cell is a byte of four pixels 0, and by its counts it has no
 * pixel at all, so that a byte of four pixels 3 does not fit. */
static void unfit(uint64_t words[CHIPS][MOST_WORDS])
{
    size_t chip = (size_t)below(CHIPS);
    for (size_t c = 0; c < CHIPS; c++)
        set_phase(words[c], &bus_phases[2]);
    set_phase(words[chip], &bus_phases[below(2) ? 5 : 7]);
    words[chip][W_X] = 50;
    words[chip][W_Y] = below(16);
    bus_byte(chip, 101 * words[chip][W_Y] + 50, 0x00);
    memset(words[chip] + W_PIXELS_0, 0, PIXEL_VALUES * sizeof words[chip][0]);
}

/* A word of the register part above its limit, so that pins and phases stay as they are. */
static void set_records_for(unsigned faults)
{
    uint64_t words[CHIPS][MOST_WORDS];
    size_t word = (size_t)below(W_OC + 1);
    random_records(words, (unsigned)below(STANDINGS));
    if (has(faults, PIXEL_COUNT))
        unfit(words);
    if (has(faults, BUS))
        misfit(words);
    if (has(faults, RECORD))
        words[below(CHIPS)][word] = word_limit(word) + 1;
    set_records(words);
}

/* Pins above 3 are a fault of a sensor reading alone. */
static void try_faults(unsigned faults)
{
    bool display = has(faults, PIXEL_COUNT);
    uint16_t event = display ? UNFIT_BYTE : (uint16_t)below(RESET_PULSE + 1);
    uint64_t pins = has(faults, SENSOR_PINS) ? odd_pins[4 + below(ODD_PINS - 4)] : below(4);
    bool reading = has(faults, SENSOR_PINS) || (!display && below(2));
    if (reading)
        event = (uint16_t)(SENSOR + below(256));
    if (has(faults, EVENT))
        event = unlisted_event();
    lend_for(faults);
    set_records_for(faults);
    bus_count(has(faults, COUNT) ? UINT64_MAX : UINT64_MAX - 1 - below(1000));
    for (unsigned fault = 0; fault < FAULTS; fault++)
        if (has(faults, fault)) {
            expect_bus(event, pins, refusals[fault]);
            return;
        }
    if (compare_bus(event, pins) < NOTHING)
        fail("a call without fault is refused");
}

void test_order(void)
{
    theme("order of refusals");
    for (int i = 0; i < (quick ? 20 : 200); i++)
        for (unsigned faults = 0; faults < 1u << FAULTS; faults++)
            try_faults(faults);
}
