/* Refusals and their order: lengths, records, events and counts that are right and wrong, in every
 * mixture, for the step and for the run. */
#include "harness.h"
#include "records.h"
#include "themes.h"

#include <string.h>

static const size_t memory_lens[] = { 0, 1716, 1717, 1718 };
static const size_t record_lens[] = { 0, 34, 37, 38, 39 };
static const uint64_t counts[] = { 5, UINT64_MAX };
static const uint16_t single_events[] = { 0x55, 256, 260, 600, 261, 768, 65535 };

static const uint16_t good_event[] = { 256 };
static const uint16_t bad_event[] = { 511 };
static const uint16_t cut_events[] = { 256, 0x78, 0x40, 0x11, 768, 0x22, 257 };

static void run_list(const uint64_t *words, uint64_t count, const uint16_t *events, size_t length)
{
    struct ran ran;
    set_record(words);
    set_count(count);
    compare_run(events, length, &ran);
}

static void run_lists(const uint64_t *words, uint64_t count)
{
    run_list(words, count, good_event, 0);
    run_list(words, count, good_event, 1);
    run_list(words, count, bad_event, 1);
    run_list(words, count, cut_events, sizeof cut_events / sizeof cut_events[0]);
}

/* One record, with each count and each event. */
static void try_record(const uint64_t *words)
{
    for (size_t c = 0; c < sizeof counts / sizeof counts[0]; c++) {
        for (size_t e = 0; e < sizeof single_events / sizeof single_events[0]; e++) {
            set_record(words);
            set_count(counts[c]);
            compare_step(single_events[e]);
        }
        run_lists(words, counts[c]);
    }
}

static void try_value(const uint64_t *good, size_t word, uint64_t value)
{
    uint64_t words[MOST_WORDS];
    memcpy(words, good, sizeof words);
    words[word] = value;
    try_record(words);
}

/* One word at a time: just above its limit, and values that a narrower number would cut. */
static void try_word(const uint64_t *good, size_t word)
{
    uint64_t limit = word_limit(word);
    try_value(good, word, limit + 1);
    try_value(good, word, ((uint64_t)1 << 32) + limit);
    if (quick)
        return;
    try_value(good, word, limit);
    try_value(good, word, 256);
    try_value(good, word, 256 + limit);
    try_value(good, word, 65536);
    try_value(good, word, (uint64_t)1 << 32);
    try_value(good, word, (uint64_t)1 << 63);
    try_value(good, word, UINT64_MAX);
}

/* Every phase with every RS, allowed or not, and either last RS. */
static void try_phases(const uint64_t *good)
{
    uint64_t words[MOST_WORDS];
    memcpy(words, good, sizeof words);
    for (words[W_PHASE] = 0; words[W_PHASE] <= 8; words[W_PHASE]++)
        for (words[W_PHASE_RS] = 0; words[W_PHASE_RS] <= 2; words[W_PHASE_RS]++)
            for (words[W_LAST_RS] = 0; words[W_LAST_RS] <= 1; words[W_LAST_RS]++)
                try_record(words);
}

static void try_records(void)
{
    uint64_t good[MOST_WORDS];
    reset_record(good, 2);
    try_record(good);
    try_phases(good);
    full_record(good);
    try_record(good);
    for (size_t word = 0; word < RECORD_LEN; word++) {
        random_record(good);
        try_word(good, word);
    }
}

static void try_lengths(size_t memory_len, size_t writers_len, enum where where)
{
    for (size_t r = 0; r < sizeof record_lens / sizeof record_lens[0]; r++) {
        lend(record_lens[r], memory_len, writers_len, where);
        try_records();
    }
}

void test_refusals(void)
{
    theme("refusals");
    for (size_t m = 0; m < sizeof memory_lens / sizeof memory_lens[0]; m++)
        for (size_t w = 0; w < sizeof memory_lens / sizeof memory_lens[0]; w++) {
            try_lengths(memory_lens[m], memory_lens[w], AT_END);
            if (!quick)
                try_lengths(memory_lens[m], memory_lens[w], AT_START);
        }
}
