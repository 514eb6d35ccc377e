/* What a byte from the master is answered, by number and not by the model alone: the command bytes
 * of every page, by the rows of the data sheet, and the bytes that are no commands. */
#include "harness.h"
#include "records.h"
#include "themes.h"

#include <string.h>

enum { EVERY_PAGE = LAST_PAGE + 1 };

/* Bytes that get the same answer in a page: the first one, and from there in steps to the last. */
struct span {
    const char *what;
    uint64_t page;
    uint16_t first, last, step;
    uint64_t answer;
};

/* The bytes of no span are unknown in the page. */
static const struct span spans[] = {
    { "no operation", EVERY_PAGE, 0x00, 0x00, 1, COMMAND_TAKEN },
    { "page return", EVERY_PAGE, 0x01, 0x01, 1, COMMAND_TAKEN },

    { "pages 0 to 4", 0, 0x08, 0x0C, 1, COMMAND_TAKEN },
    { "pages 5 to 7", 0, 0x0D, 0x0F, 1, COMMAND_OUT_OF_RANGE },
    { "data order, power-down, address mode", 0, 0x10, 0x1E, 2, COMMAND_TAKEN },
    { "Y 0 to 16", 0, 0x40, 0x50, 1, COMMAND_TAKEN },
    { "Y 17 to 31", 0, 0x51, 0x5F, 1, COMMAND_OUT_OF_RANGE },
    { "X 0 to 100", 0, 0x80, 0xE4, 1, COMMAND_TAKEN },
    { "X 101 to 127", 0, 0xE5, 0xFF, 1, COMMAND_OUT_OF_RANGE },

    { "display mode", 1, 0x04, 0x07, 1, COMMAND_TAKEN },
    { "mirroring, partial screen", 1, 0x08, 0x0F, 1, COMMAND_TAKEN },
    { "bias system", 1, 0x10, 0x17, 1, COMMAND_TAKEN },
    { "bias system 1/2", 1, 0x38, 0x39, 1, COMMAND_TAKEN },
    { "display part", 1, 0x40, 0x47, 1, COMMAND_TAKEN },

    { "programming range, generator", 2, 0x04, 0x07, 1, COMMAND_TAKEN },
    { "voltage multiplier", 2, 0x08, 0x0F, 1, COMMAND_TAKEN },
    { "temperature coefficient", 2, 0x10, 0x17, 1, COMMAND_TAKEN },
    { "temperature measurement", 2, 0x20, 0x21, 1, COMMAND_TAKEN },
    { "display voltage", 2, 0x80, 0xFF, 1, COMMAND_TAKEN },

    { "selected grey register", 3, 0x40, 0x43, 1, COMMAND_TAKEN },
    { "level of the grey register", 3, 0x80, 0xBF, 1, COMMAND_TAKEN },

    { "display off, direct drive", 4, 0x04, 0x07, 1, COMMAND_TAKEN },
    { "clock, oscillator calibration", 4, 0x08, 0x0B, 1, COMMAND_TAKEN },
    { "row block swapping", 4, 0x40, 0x58, 8, COMMAND_TAKEN },
};

static const struct span of_no_row = { .what = "no row", .answer = COMMAND_UNKNOWN };

static const struct span *span_of(uint64_t page, uint16_t byte)
{
    for (size_t s = 0; s < sizeof spans / sizeof spans[0]; s++) {
        const struct span *span = &spans[s];
        if ((span->page == page || span->page == EVERY_PAGE) && byte >= span->first
            && byte <= span->last && (byte - span->first) % span->step == 0)
            return span;
    }
    return &of_no_row;
}

static void expect_answer(const char *what, uint16_t byte, uint64_t right)
{
    uint64_t answer = compare_step(byte);
    if (answer != right)
        fail("byte %u, %s: the answer is %llu, not %llu", byte, what, (unsigned long long)answer,
             (unsigned long long)right);
}

/* ---- Command bytes ----------------------------------------------------------------------- */

/* Fails unless the registers from this one on are in both states alike. */
static void expect_registers(const struct state *one, const struct state *other, size_t from,
                             const char *what)
{
    size_t count = W_OC + 1 - from;
    if (memcmp(one->record + from, other->record + from, count * sizeof one->record[0]) != 0)
        fail("%s: a register is changed", what);
}

/* A command that was taken finds its registers set when it comes again in the same page, and is
 * taken again. Page and phase are set back for it. */
static void expect_again(const uint64_t *words, const struct span *span, uint16_t byte)
{
    static struct state set, after;
    save(&set);
    set.record[W_H] = words[W_H];
    set.record[W_PHASE] = words[W_PHASE];
    set.record[W_PHASE_RS] = words[W_PHASE_RS];
    restore(&set);
    expect_answer(span->what, byte, span->answer);
    save(&after);
    expect_registers(&set, &after, W_H + 1, span->what);
}

/* The count leaves room for a second event. */
static void try_command(const uint64_t *words, uint16_t byte)
{
    static struct state before, after;
    const struct span *span = span_of(words[W_H], byte);
    set_record(words);
    set_count(below(1000));
    save(&before);
    expect_answer(span->what, byte, span->answer);
    save(&after);
    if (span->answer == COMMAND_TAKEN)
        expect_again(words, span, byte);
    else
        expect_registers(&before, &after, W_H, span->what);
}

static void try_commands(uint64_t *words, const struct bus_phase *phase)
{
    set_phase(words, phase);
    for (words[W_H] = 0; words[W_H] <= LAST_PAGE; words[W_H]++)
        for (uint16_t byte = 0; byte < 256; byte++)
            try_command(words, byte);
}

static void try_command_phase(const struct bus_phase *phase)
{
    uint64_t words[MOST_WORDS];
    reset_record(words, 0);
    try_commands(words, phase);
    full_record(words);
    try_commands(words, phase);
    for (int i = 0; i < (quick ? 1 : 8); i++) {
        random_record(words);
        try_commands(words, phase);
    }
}

/* ---- Other bytes ------------------------------------------------------------------------- */

static uint64_t plain_answer(uint64_t phase, uint64_t pins, uint16_t byte)
{
    switch (phase) {
    case 1: return byte >> 1 == (0x3C | pins) ? ACK : NACK;
    case 3: case 4: case 5: return ACK;
    default: return NACK;
    }
}

static void try_other_phase(const struct bus_phase *phase)
{
    uint64_t words[MOST_WORDS];
    for (uint64_t page = 0; page <= LAST_PAGE; page++)
        for (uint16_t byte = 0; byte < 256; byte++) {
            random_record(words);
            set_phase(words, phase);
            words[W_H] = page;
            set_record(words);
            expect_answer("no command", byte, plain_answer(phase->phase, words[W_PINS], byte));
        }
}

static bool takes_commands(const struct bus_phase *phase)
{
    return (phase->phase == 4 || phase->phase == 5) && phase->rs == 0;
}

void test_answers(void)
{
    theme("answers");
    for (size_t p = 0; p < PHASES; p++) {
        lend_usual();
        if (takes_commands(&bus_phases[p]))
            try_command_phase(&bus_phases[p]);
        else
            try_other_phase(&bus_phases[p]);
    }
}
