/* Event counts where a narrower number, or the last one, would show. */
#include "harness.h"
#include "records.h"
#include "themes.h"

static const uint64_t counts[] = {
    0, 1, 254, 255, 256, 65534, 65535, 65536,
    0x7FFFFFFEu, 0x7FFFFFFFu, 0x80000000u,
    0xFFFFFFFDu, 0xFFFFFFFEu, 0xFFFFFFFFu, 0x100000000u, 0x100000001u, 0x100000002u,
    0x7FFFFFFFFFFFFFFEu, 0x7FFFFFFFFFFFFFFFu, 0x8000000000000000u,
    UINT64_MAX - 9, UINT64_MAX - 5, UINT64_MAX - 4, UINT64_MAX - 3, UINT64_MAX - 2,
    UINT64_MAX - 1, UINT64_MAX
};

enum { COUNTS = sizeof counts / sizeof counts[0] };

static const uint16_t events[] = {
    0, 1, 0x3F, 0x78, 0x79, 0x80, 0xC0, 0xFF, 256, 257, 258, 259, 260, 512, 600, 767,
    261, 511, 768, 65535
};

static const uint16_t writing[] = { 256, 0x78, 0x40, 0x11, 0x22, 0x33, 257 };
static const uint16_t cut_writing[] = { 256, 0x78, 0x40, 0x11, 300, 0x33, 257 };

/* Steps on from each count until it is used up, if it is that near. */
static void try_steps(uint64_t count, const struct bus_phase *phase, uint16_t event)
{
    uint64_t words[MOST_WORDS];
    random_record(words);
    set_phase(words, phase);
    set_record(words);
    set_count(count);
    for (int i = 0; i < 5; i++)
        compare_step(event);
}

static void try_run(uint64_t count, const uint16_t *list, size_t length)
{
    uint64_t words[MOST_WORDS];
    struct ran ran;
    random_record(words);
    words[W_PINS] = 0;
    set_record(words);
    set_count(count);
    compare_run(list, length, &ran);
    compare_run(list, length, &ran);
}

void test_counts(void)
{
    theme("counts");
    for (size_t c = 0; c < COUNTS; c++) {
        lend_usual();
        for (size_t p = 0; p < PHASES; p++)
            for (size_t e = 0; e < sizeof events / sizeof events[0]; e++)
                try_steps(counts[c], &bus_phases[p], events[e]);
        for (size_t n = 0; n <= sizeof writing / sizeof writing[0]; n++)
            for (int i = 0; i < 20; i++) {
                try_run(counts[c], writing, n);
                try_run(counts[c], cut_writing, n);
            }
    }
}
