/* The reset call: every kind of pins and every length, on buffers full of noise. */
#include "harness.h"
#include "records.h"
#include "themes.h"

static const uint64_t pins[] = {
    0, 1, 2, 3, 4, 5, 7, 8, 127, 128, 255, 256, 257, 259, 65535, 65536, 65539,
    0xFFFFFFFFu, 0x100000000u, 0x100000001u, 0x100000003u, 0x8000000000000000u,
    UINT64_MAX - 3, UINT64_MAX
};

static const size_t record_lens[] = { 0, 1, 29, 34, 35, 37, 38, 39 };

static void reset_noise(uint64_t value)
{
    uint64_t words[MOST_WORDS];
    for (size_t w = 0; w < MOST_WORDS; w++)
        words[w] = random64();
    set_record(words);
    uint64_t result = compare_reset(value);
    if (result == 0 && (word_now(W_PIXELS_0) != ALL_PIXELS || word_now(W_PIXELS_0 + 1) != 0
                        || word_now(W_PIXELS_0 + 2) != 0 || word_now(W_PIXELS_0 + 3) != 0))
        fail("the counts of pixels are not those of a memory of zeros");
}

static void reset_lengths(enum where where)
{
    for (size_t l = 0; l < sizeof record_lens / sizeof record_lens[0]; l++) {
        lend(record_lens[l], PLACES, PLACES, where);
        for (size_t p = 0; p < sizeof pins / sizeof pins[0]; p++)
            reset_noise(pins[p]);
        for (int i = 0; i < 1000; i++)
            reset_noise(random64() >> below(64));
    }
}

void test_resets(void)
{
    theme("resets");
    reset_lengths(AT_START);
    reset_lengths(AT_END);
}
