#include "buses.h"

const uint64_t odd_pins[ODD_PINS] = {
    0, 1, 2, 3, 4, 5, 7, 127, 128, 255, 256, 257, 65536, 65539, 0xFFFFFFFFu, 0x100000000u,
    0x100000003u, 0x8000000000000000u, UINT64_MAX - 3, UINT64_MAX
};

/* In the table of phases the first three are those of a chip that is not past its address. */
struct bus_phase phase_in(unsigned standing, size_t chip)
{
    if (standing < 3)
        return bus_phases[standing];
    unsigned past = standing - 3;
    return past / PAST_PHASES == chip ? bus_phases[3 + past % PAST_PHASES] : bus_phases[2];
}

static void shuffle(uint64_t pins[CHIPS])
{
    for (size_t i = CHIPS - 1; i > 0; i--) {
        size_t other = (size_t)below(i + 1);
        uint64_t kept = pins[i];
        pins[i] = pins[other];
        pins[other] = kept;
    }
}

void random_records(uint64_t words[CHIPS][MOST_WORDS], unsigned standing)
{
    uint64_t pins[CHIPS] = { 0, 1, 2, 3 };
    shuffle(pins);
    for (size_t c = 0; c < CHIPS; c++) {
        struct bus_phase phase = phase_in(standing, c);
        random_record(words[c]);
        set_phase(words[c], &phase);
        words[c][W_PINS] = pins[c];
    }
}

void set_records(uint64_t words[CHIPS][MOST_WORDS])
{
    for (size_t c = 0; c < CHIPS; c++)
        bus_record(c, words[c]);
}

void random_bus(unsigned standing)
{
    uint64_t words[CHIPS][MOST_WORDS];
    random_records(words, standing);
    set_records(words);
    bus_count(random_count());
}

void random_true_bus(unsigned standing)
{
    random_bus(standing);
    bus_true_pixels();
}

size_t chip_of(uint64_t pins)
{
    for (size_t c = 0; c < CHIPS; c++)
        if (bus_word(c, W_PINS) == pins)
            return c;
    fail("no chip has the pins %llu", (unsigned long long)pins);
}
