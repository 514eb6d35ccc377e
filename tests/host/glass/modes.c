/* Every mixture of the registers that the glass looks at, on every row, at the columns that tell. */
#include "glass_calls.h"
#include "records.h"
#include "themes.h"

static const uint64_t columns[] = { 0, 1, 49, 50, 51, 99, 100 };

/* The registers that are one bit wide, then DP. */
static const size_t switches[] = { W_PD, W_DOF, W_D, W_E, W_PS, W_MX, W_MY };

enum { SWITCHES = sizeof switches / sizeof switches[0], PARTS = 8 };

/* Four levels, each different from the others. */
static void set_levels(uint64_t *words)
{
    uint64_t first = below(64);
    uint64_t step = 1 + below(20);
    for (uint64_t i = 0; i < 4; i++)
        words[W_GS0 + i] = (first + i * step) % 64;
}

static void set_mixture(uint64_t *words, unsigned mixture)
{
    for (size_t i = 0; i < SWITCHES; i++)
        words[switches[i]] = mixture >> i & 1;
    words[W_DP] = mixture >> SWITCHES;
}

static void try_rows(void)
{
    for (uint64_t row = 0; row < ROWS; row++)
        for (size_t c = 0; c < sizeof columns / sizeof columns[0]; c++)
            compare_pixel(row, columns[c]);
}

void test_modes(void)
{
    uint64_t words[MOST_WORDS];
    unsigned stride = quick ? 3 : 1;
    theme("modes");
    for (unsigned mixture = 0; mixture < PARTS << SWITCHES; mixture += stride) {
        if (mixture % 64 == 0)
            glass_lend_usual();
        random_record(words);
        set_levels(words);
        set_mixture(words, mixture);
        glass_record(words);
        try_rows();
    }
}
