/* Refusals and their order: records, texts and rooms that are right and wrong, in every mixture. */
#include "compile_calls.h"
#include "harness.h"
#include "records.h"
#include "themes.h"

#include <string.h>

static const size_t record_lens[] = { 0, 1, 34, 37, 38, 39 };

/* The texts, each with one more fault than those before it. */
enum { EMPTY, GOOD, FRAGMENT, MALFORMED, OUT_OF_RANGE, LATE, TOO_LONG, TOO_LONG_AND_BAD, TEXTS };

static struct text texts[TEXTS];

static void make_texts(void)
{
    clear_text(&texts[EMPTY]);
    random_list(&texts[GOOD], 5);
    texts[FRAGMENT] = texts[GOOD];
    add_text(&texts[FRAGMENT], "put\t0\t0\t0");
    random_list(&texts[MALFORMED], 2);
    add_text(&texts[MALFORMED], "put\t0\t0\nput\t0\t16\t64\n");
    random_list(&texts[OUT_OF_RANGE], 1);
    add_text(&texts[OUT_OF_RANGE], "put\t0\t16\t64\nput\t0\t0\n");
    random_list(&texts[LATE], 300);
    add_text(&texts[LATE], "set\tpd\t2");
    random_list(&texts[TOO_LONG], MOST_NEWLINES + 1);
    clear_text(&texts[TOO_LONG_AND_BAD]);
    add_text(&texts[TOO_LONG_AND_BAD], "put\t0\t16\t64\n");
    for (int i = 0; i < MOST_NEWLINES; i++)
        add_text(&texts[TOO_LONG_AND_BAD], "\n");
}

/* The order of the table: the record, the number of newlines, the first bad line, the room. */
static uint64_t right_result(bool record, size_t text, bool room)
{
    static const uint64_t results[TEXTS] = { 0, 0, 6, 6, 7, 6, 9, 9 };
    if (!record)
        return 2;
    if (results[text] != 0)
        return results[text];
    return room ? 0 : 10;
}

static void try_rooms(const uint64_t *words, size_t record_len, bool record, size_t t)
{
    struct compiled compiled;
    uint64_t good[MOST_WORDS];
    reset_record(good, 0);
    size_t need = needed(record ? words : good, &texts[t]);
    size_t rooms[] = { 0, need > 0 ? need - 1 : 0, need };
    for (size_t i = 0; i < 3; i++) {
        uint64_t result = compare_compile(words, record_len, &texts[t], rooms[i], &compiled);
        if (result != right_result(record, t, rooms[i] >= need))
            fail("%llu is not the refusal that comes first", (unsigned long long)result);
    }
}

static void try_record(const uint64_t *words, size_t record_len, bool record)
{
    for (size_t t = 0; t < TEXTS; t++)
        if (t != TOO_LONG || below(quick ? 40 : 10) == 0)
            try_rooms(words, record_len, record, t);
}

static void try_value(size_t word, uint64_t value, bool record)
{
    uint64_t words[MOST_WORDS];
    random_record(words);
    words[word] = value;
    if (word == W_PHASE)
        words[W_PHASE_RS] = 0;
    if (word == W_PHASE_RS)
        words[W_PHASE] = 5;
    try_record(words, RECORD_LEN, record);
}

/* One word at a time: at its limit, just above, and values that a narrower number would cut. */
static void try_word(size_t word)
{
    uint64_t limit = word_limit(word);
    try_value(word, limit, true);
    try_value(word, limit + 1, false);
    try_value(word, 256 + limit, false);
    try_value(word, (uint64_t)1 << 32, false);
    try_value(word, ((uint64_t)1 << 32) + limit, false);
    try_value(word, (uint64_t)1 << 63, false);
    try_value(word, UINT64_MAX, false);
}

/* Every phase with every RS, allowed or not. */
static void try_phases(void)
{
    uint64_t words[MOST_WORDS];
    random_record(words);
    for (words[W_PHASE] = 0; words[W_PHASE] <= 8; words[W_PHASE]++)
        for (words[W_PHASE_RS] = 0; words[W_PHASE_RS] <= 2; words[W_PHASE_RS]++) {
            bool has_rs = words[W_PHASE] == 4 || words[W_PHASE] == 5;
            bool record = words[W_PHASE] <= 7 && words[W_PHASE_RS] <= (has_rs ? 1 : 0);
            try_record(words, RECORD_LEN, record);
        }
}

void test_refusals(void)
{
    uint64_t words[MOST_WORDS];
    theme("refusals");
    make_texts();
    for (size_t r = 0; r < sizeof record_lens / sizeof record_lens[0]; r++)
        for (int i = 0; i < 4; i++) {
            random_record(words);
            try_record(words, record_lens[r], record_lens[r] == RECORD_LEN);
        }
    for (size_t word = 0; word < RECORD_LEN; word++)
        try_word(word);
    try_phases();
}
