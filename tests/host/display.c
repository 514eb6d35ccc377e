/* Display bytes: all values, all edges of X and Y, with MX, V and DO in every mixture. */
#include "harness.h"
#include "records.h"
#include "themes.h"

static const uint64_t columns[] = { 0, 1, 49, 50, 51, 99, 100 };
static const uint64_t banks[] = { 0, 1, 8, 15, 16 };
static const struct bus_phase data_phases[] = { { 4, 1 }, { 5, 1 } };

static void try_byte(unsigned mode, const struct bus_phase *phase, uint64_t x, uint64_t y,
                     uint16_t byte)
{
    uint64_t words[MOST_WORDS];
    random_record(words);
    set_write_mode(words, mode);
    set_phase(words, phase);
    words[W_X] = x;
    words[W_Y] = y;
    set_record(words);
    compare_step(byte);
}

static void try_edges(unsigned mode, const struct bus_phase *phase)
{
    unsigned stride = quick ? 7 : 1;
    for (size_t c = 0; c < sizeof columns / sizeof columns[0]; c++)
        for (size_t b = 0; b < sizeof banks / sizeof banks[0]; b++)
            for (unsigned byte = 0; byte < 256; byte += stride)
                try_byte(mode, phase, columns[c], banks[b], (uint16_t)byte);
}

static void try_places(unsigned mode, const struct bus_phase *phase)
{
    for (uint64_t y = 0; y <= 16; y++)
        for (uint64_t x = 0; x <= 100; x++)
            for (int i = 0; i < (quick ? 1 : 4); i++)
                try_byte(mode, phase, x, y, (uint16_t)below(256));
}

/* The whole memory and a little more, written in one endless sequence. */
static void try_round(unsigned mode)
{
    uint64_t words[MOST_WORDS];
    random_record(words);
    set_write_mode(words, mode);
    set_phase(words, &data_phases[1]);
    set_record(words);
    for (int i = 0; i < PLACES + 200; i++)
        compare_step((uint16_t)below(256));
}

void test_display(void)
{
    theme("display");
    for (unsigned mode = 0; mode < WRITE_MODES; mode++) {
        lend_usual();
        for (size_t p = 0; p < sizeof data_phases / sizeof data_phases[0]; p++) {
            try_edges(mode, &data_phases[p]);
            try_places(mode, &data_phases[p]);
        }
        try_round(mode);
    }
}
