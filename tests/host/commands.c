/* Every command byte in every page, in both phases that take commands. */
#include "harness.h"
#include "records.h"
#include "themes.h"

static const struct bus_phase command_phases[] = { { 4, 0 }, { 5, 0 } };

static void try_bytes(uint64_t *words)
{
    for (uint64_t page = 0; page <= LAST_PAGE; page++) {
        words[W_H] = page;
        for (uint16_t byte = 0; byte < 256; byte++) {
            set_record(words);
            compare_step(byte);
        }
    }
}

/* Random records for each byte anew, so that no field hides behind another. */
static void try_random_bytes(const struct bus_phase *phase, int times)
{
    uint64_t words[MOST_WORDS];
    for (int i = 0; i < times; i++)
        for (uint64_t page = 0; page <= LAST_PAGE; page++)
            for (uint16_t byte = 0; byte < 256; byte++) {
                random_record(words);
                set_phase(words, phase);
                words[W_H] = page;
                set_record(words);
                compare_step(byte);
            }
}

/* Each grey register selected in turn, all that it can hold. */
static void try_grey_registers(void)
{
    uint64_t words[MOST_WORDS];
    for (uint16_t selected = 0; selected < 4; selected++)
        for (uint16_t held = 0; held < 64; held++) {
            random_record(words);
            set_phase(words, &command_phases[1]);
            words[W_H] = 3;
            set_record(words);
            compare_step(0x40 + selected);
            compare_step(0x80 + held);
        }
}

void test_commands(void)
{
    uint64_t words[MOST_WORDS];
    theme("commands");
    lend_usual();
    for (size_t p = 0; p < sizeof command_phases / sizeof command_phases[0]; p++) {
        reset_record(words, 0);
        set_phase(words, &command_phases[p]);
        try_bytes(words);
        full_record(words);
        set_phase(words, &command_phases[p]);
        try_bytes(words);
        try_random_bytes(&command_phases[p], quick ? 4 : 60);
    }
    try_grey_registers();
}
