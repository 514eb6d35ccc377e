/* Every event number in every phase and every page. */
#include "harness.h"
#include "records.h"
#include "themes.h"

enum { LISTED = 768, ALL_EVENTS = 65536 };

static void try_event(const struct bus_phase *phase, uint64_t page, uint64_t last_rs, uint16_t event)
{
    uint64_t words[MOST_WORDS];
    random_record(words);
    set_phase(words, phase);
    words[W_H] = page;
    words[W_LAST_RS] = last_rs;
    set_record(words);
    compare_step(event);
}

/* The numbers below LISTED oftener, so that each meets every pin, RS, SM and PD. */
static void try_phase(const struct bus_phase *phase, uint64_t page)
{
    unsigned stride = quick ? 61 : 1;
    for (unsigned event = 0; event < ALL_EVENTS; event += stride)
        try_event(phase, page, below(2), (uint16_t)event);
    for (int i = 0; i < (quick ? 1 : 8); i++)
        for (unsigned event = 0; event < LISTED; event++) {
            try_event(phase, page, 0, (uint16_t)event);
            try_event(phase, page, 1, (uint16_t)event);
        }
}

/* All pins against all address bytes. */
static void try_addresses(void)
{
    uint64_t words[MOST_WORDS];
    for (uint64_t pins = 0; pins < 4; pins++)
        for (uint16_t byte = 0; byte < 256; byte++) {
            random_record(words);
            set_phase(words, &bus_phases[1]);
            words[W_PINS] = pins;
            set_record(words);
            compare_step(byte);
        }
}

/* Sensor readings with SM and PD in every mixture. */
static void try_sensor(void)
{
    uint64_t words[MOST_WORDS];
    for (uint64_t mode = 0; mode < 4; mode++)
        for (uint16_t event = 512; event < 768; event++) {
            random_record(words);
            words[W_SM] = mode & 1;
            words[W_PD] = mode >> 1;
            set_record(words);
            compare_step(event);
        }
}

void test_events(void)
{
    theme("events");
    for (size_t p = 0; p < PHASES; p++)
        for (uint64_t page = 0; page <= LAST_PAGE; page++) {
            lend_usual();
            try_phase(&bus_phases[p], page);
        }
    try_addresses();
    try_sensor();
}
