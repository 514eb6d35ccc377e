/* The row buffer's length among the other refusals of a row, and rows that no glass has. */
#include "glass_calls.h"
#include "records.h"
#include "themes.h"

static const size_t out_lens[] = {
    0, 1, 3, 4, 5, 101, 103, 256, 400, 401, 402, 403, 404, 405, 406, 407, 408, 505, 807, 808
};

static const size_t memory_lens[] = { 0, 1716, 1717, 1718 };
static const size_t record_lens[] = { 0, 34, 37, 38, 39 };

static const uint64_t rows[] = {
    0, 33, 66, 67, 100, 255, 256, 65536, 0xFFFFFFFFu, 0x100000000u, 0x100000000u + 66,
    0x8000000000000042u, UINT64_MAX
};

static void try_record(const uint64_t *words)
{
    glass_record(words);
    for (size_t r = 0; r < sizeof rows / sizeof rows[0]; r++)
        for (size_t o = 0; o < sizeof out_lens / sizeof out_lens[0]; o++)
            compare_pulse_row(rows[r], out_lens[o]);
}

/* Every word above its limit is a record that is not allowed, whatever the row buffer is. */
static void try_words(void)
{
    uint64_t words[MOST_WORDS];
    for (size_t word = 0; word < RECORD_LEN; word++) {
        random_record(words);
        words[word] = word_limit(word) + 1;
        glass_record(words);
        compare_pulse_row(66, ROW_BYTES);
        compare_pulse_row(67, ROW_BYTES);
        compare_pulse_row(66, ROW_BYTES - 1);
    }
}

static void try_lengths(size_t record_len, size_t memory_len, enum where where)
{
    uint64_t words[MOST_WORDS];
    glass_lend(record_len, memory_len, where);
    reset_record(words, 2);
    try_record(words);
    random_record(words);
    words[W_PD] = 0;
    words[W_DOF] = 0;
    try_record(words);
    full_record(words);
    words[W_X] = 101;
    try_record(words);
    try_words();
}

void test_row_buffers(void)
{
    theme("row buffers");
    for (size_t m = 0; m < sizeof memory_lens / sizeof memory_lens[0]; m++)
        for (size_t r = 0; r < sizeof record_lens / sizeof record_lens[0]; r++) {
            try_lengths(record_lens[r], memory_lens[m], AT_END);
            try_lengths(record_lens[r], memory_lens[m], AT_START);
        }
}
