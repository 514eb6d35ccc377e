#include "records.h"

#include "harness.h"

#include <string.h>

struct word {
    const char *name;
    uint64_t limit;
};

static const struct word word_table[RECORD_LEN] = {
    { "h", 4 }, { "do", 1 }, { "pd", 1 }, { "v", 1 }, { "d", 1 }, { "e", 1 },
    { "mx", 1 }, { "my", 1 }, { "ps", 1 }, { "x", 100 }, { "y", 16 },
    { "bs", 7 }, { "bsh", 1 }, { "dp", 7 }, { "prs", 1 }, { "hve", 1 },
    { "s", 7 }, { "tc", 7 }, { "sm", 1 }, { "vop", 127 }, { "gr", 3 },
    { "gs0", 63 }, { "gs1", 63 }, { "gs2", 63 }, { "gs3", 63 },
    { "dof", 1 }, { "dm", 1 }, { "ec", 1 }, { "oc", 1 },
    { "pins", 3 }, { "tr", 255 }, { "last_rs", 1 }, { "phase", 7 }, { "phase_rs", 1 },
    { "pixels_0", ALL_PIXELS }, { "pixels_1", ALL_PIXELS },
    { "pixels_2", ALL_PIXELS }, { "pixels_3", ALL_PIXELS }
};

const struct bus_phase bus_phases[PHASES] = {
    { 0, 0 }, { 1, 0 }, { 2, 0 }, { 3, 0 }, { 4, 0 }, { 4, 1 }, { 5, 0 }, { 5, 1 }, { 6, 0 }, { 7, 0 }
};

uint64_t word_limit(size_t word)
{
    return word_table[word].limit;
}

const char *word_name(size_t word)
{
    return word < RECORD_LEN ? word_table[word].name : "beyond";
}

uint64_t random64(void)
{
    static uint64_t counter = 8820;
    uint64_t z = counter += 0x9E3779B97F4A7C15u;
    z = (z ^ (z >> 30)) * 0xBF58476D1CE4E5B9u;
    z = (z ^ (z >> 27)) * 0x94D049BB133111EBu;
    return z ^ (z >> 31);
}

uint64_t below(uint64_t bound)
{
    return (random64() >> 32) % bound;
}

void reset_record(uint64_t *words, uint64_t pins)
{
    memset(words, 0, RECORD_LEN * sizeof *words);
    words[W_PD] = 1;
    words[W_DOF] = 1;
    words[W_PINS] = pins;
    words[W_PIXELS_0] = ALL_PIXELS;
    words[RECORD_LEN] = random64();
}

/* Every word at its limit; the phase is endless bytes with RS 1, the highest that has an RS. */
void full_record(uint64_t *words)
{
    for (size_t w = 0; w < RECORD_LEN; w++)
        words[w] = word_limit(w);
    set_phase(words, &bus_phases[7]);
    words[RECORD_LEN] = random64();
}

/* X and Y stand at an edge more often than by chance. */
void random_record(uint64_t *words)
{
    for (size_t w = 0; w < W_PHASE; w++)
        words[w] = below(word_limit(w) + 1);
    if (below(2))
        words[W_X] = below(2) ? 100 : 0;
    if (below(2))
        words[W_Y] = below(2) ? 16 : 0;
    set_phase(words, &bus_phases[below(PHASES)]);
    for (size_t v = 0; v < PIXEL_VALUES; v++)
        words[W_PIXELS_0 + v] = 2000 + below(2768);
    words[RECORD_LEN] = random64();
}

uint64_t random_count(void)
{
    uint64_t count = random64() >> below(64);
    return count == UINT64_MAX ? 0 : count;
}

void set_phase(uint64_t *words, const struct bus_phase *phase)
{
    words[W_PHASE] = phase->phase;
    words[W_PHASE_RS] = phase->rs;
}

void set_write_mode(uint64_t *words, unsigned mode)
{
    words[W_MX] = mode & 1;
    words[W_V] = mode >> 1 & 1;
    words[W_DO] = mode >> 2 & 1;
}

/* Four pixels, and three in the last bank, from place 16 * 101 on. */
void add_pixels(uint64_t *counts, size_t place, uint8_t byte)
{
    counts[byte & 3]++;
    counts[byte >> 2 & 3]++;
    counts[byte >> 4 & 3]++;
    if (place < 16 * 101)
        counts[byte >> 6]++;
}

void set_pixels(uint64_t *words, const uint8_t *memory)
{
    memset(words + W_PIXELS_0, 0, PIXEL_VALUES * sizeof *words);
    for (size_t place = 0; place < PLACES; place++)
        add_pixels(words + W_PIXELS_0, place, memory[place]);
}

uint16_t unlisted_event(void)
{
    static const uint16_t edges[] = { 261, 511, 768, 1024, 65535 };
    if (below(2))
        return edges[below(sizeof edges / sizeof edges[0])];
    return (uint16_t)(below(2) ? 261 + below(512 - 261) : 768 + below(65536 - 768));
}
