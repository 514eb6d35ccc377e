/* The count of the unclear samples: one for each, and no further than 2^64 - 1. */
#include "records.h"
#include "themes.h"
#include "wires_calls.h"

enum { MOST_UNCLEAR = 20 };

/* Unclear samples one after the other, or with samples between them that are not. */
static size_t make_unclear(uint8_t *samples, size_t unclear, size_t between)
{
    size_t length = 0;
    unsigned level = BOTH;
    for (size_t i = 0; i < unclear; i++) {
        level ^= BOTH;
        for (size_t n = 0; n <= between; n++)
            samples[length++] = (uint8_t)level;
    }
    return length;
}

static void try_count(uint64_t before, size_t unclear, size_t between)
{
    uint8_t samples[MOST_UNCLEAR * 4];
    uint64_t words[MOST_WORDS] = { before, BOTH, below(5), 0, 0 };
    size_t length = make_unclear(samples, unclear, between);
    uint64_t after = before > UINT64_MAX - unclear ? UINT64_MAX : before + unclear;
    lend_state(words, STATE_LEN);
    expect_wires(samples, length, 0, 0, length, 0);
    words[W_UNCLEAR] = after;
    if (unclear > 0) {
        words[W_LAST] = samples[length - 1];
        words[W_STAGE] = 1;
    }
    expect_state(words);
}

void test_unclear_counts(void)
{
    static const uint64_t tops[] = {
        0, 255, 256, 65535, 65536, UINT32_MAX, (uint64_t)UINT32_MAX + 1, INT64_MAX, (uint64_t)1 << 63,
        UINT64_MAX
    };
    theme("unclear counts");
    for (size_t t = 0; t < sizeof tops / sizeof tops[0]; t++)
        for (size_t below_top = 0; below_top <= MOST_UNCLEAR; below_top++)
            for (size_t unclear = 0; unclear <= MOST_UNCLEAR; unclear += quick ? 5 : 1)
                if (below_top <= tops[t])
                    try_count(tops[t] - below_top, unclear, (size_t)below(4));
}
