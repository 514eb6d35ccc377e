/* Refusals and their order: lengths, records, rows and columns that are right and wrong, in every
 * mixture. */
#include "glass_calls.h"
#include "records.h"
#include "themes.h"

#include <string.h>

static const size_t memory_lens[] = { 0, 1, 1716, 1717, 1718 };
static const size_t record_lens[] = { 0, 1, 34, 37, 38, 39 };

static const uint64_t rows[] = {
    0, 3, 66, 67, 68, 100, 101, 127, 128, 255, 256, 256 + 66, 65535, 65536, 65536 + 66,
    0xFFFFFFFFu, 0x100000000u, 0x100000000u + 66, 0x8000000000000000u, 0x8000000000000042u,
    UINT64_MAX - 66, UINT64_MAX
};

static const uint64_t columns[] = {
    0, 5, 66, 100, 101, 102, 127, 128, 255, 256, 256 + 100, 65536, 65536 + 100,
    0xFFFFFFFFu, 0x100000000u, 0x100000000u + 100, 0x8000000000000000u, 0x8000000000000064u,
    UINT64_MAX - 100, UINT64_MAX
};

static void try_numbers(const uint64_t *words)
{
    glass_record(words);
    for (size_t r = 0; r < sizeof rows / sizeof rows[0]; r++)
        for (size_t c = 0; c < sizeof columns / sizeof columns[0]; c++)
            compare_pixel(rows[r], columns[c]);
}

/* Fewer rows and columns: the numbers that decide between one refusal and another. */
static void try_record(const uint64_t *words)
{
    glass_record(words);
    compare_pixel(0, 0);
    compare_pixel(66, 100);
    compare_pixel(67, 0);
    compare_pixel(0, 101);
    compare_pixel(UINT64_MAX, UINT64_MAX);
}

static void try_value(const uint64_t *good, size_t word, uint64_t value)
{
    uint64_t words[MOST_WORDS];
    memcpy(words, good, sizeof words);
    words[word] = value;
    try_record(words);
}

/* One word at a time: at its limit, just above, and values that a narrower number would cut. */
static void try_word(size_t word)
{
    uint64_t good[MOST_WORDS];
    uint64_t limit = word_limit(word);
    random_record(good);
    good[W_PD] = 0;
    good[W_DOF] = 0;
    try_value(good, word, limit);
    try_value(good, word, limit + 1);
    try_value(good, word, 256);
    try_value(good, word, 256 + limit);
    try_value(good, word, 65536);
    try_value(good, word, (uint64_t)1 << 32);
    try_value(good, word, ((uint64_t)1 << 32) + limit);
    try_value(good, word, (uint64_t)1 << 63);
    try_value(good, word, UINT64_MAX);
}

/* Every phase with every RS, allowed or not, and either last RS. */
static void try_phases(void)
{
    uint64_t words[MOST_WORDS];
    random_record(words);
    for (words[W_PHASE] = 0; words[W_PHASE] <= 8; words[W_PHASE]++)
        for (words[W_PHASE_RS] = 0; words[W_PHASE_RS] <= 2; words[W_PHASE_RS]++)
            for (words[W_LAST_RS] = 0; words[W_LAST_RS] <= 2; words[W_LAST_RS]++)
                try_record(words);
}

static void try_lengths(size_t record_len, size_t memory_len, enum where where)
{
    uint64_t words[MOST_WORDS];
    glass_lend(record_len, memory_len, where);
    reset_record(words, 3);
    try_numbers(words);
    full_record(words);
    try_numbers(words);
    random_record(words);
    words[W_PD] = 0;
    words[W_DOF] = 0;
    try_numbers(words);
    for (size_t word = 0; word < RECORD_LEN; word++)
        try_word(word);
    try_phases();
}

void test_edges(void)
{
    theme("edges");
    for (size_t m = 0; m < sizeof memory_lens / sizeof memory_lens[0]; m++)
        for (size_t r = 0; r < sizeof record_lens / sizeof record_lens[0]; r++) {
            try_lengths(record_lens[r], memory_lens[m], AT_END);
            if (!quick)
                try_lengths(record_lens[r], memory_lens[m], AT_START);
        }
}
