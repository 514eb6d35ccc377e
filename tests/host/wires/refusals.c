/* States that are no states, and the order of the refusals: 2, 14, 15. */
#include "records.h"
#include "themes.h"
#include "wires_calls.h"

#include <string.h>

/* Good samples, of which the last two have an event each, and the same with a bad one. */
static const uint8_t good[] = { 3, 1, 3, 2, 3 };
static const uint8_t bad[] = { 3, 1, 3, 2, 4 };

enum { LENGTH = sizeof good, EVENTS = 2, BEFORE_FIRST = 3 };

static void random_state(uint64_t *words)
{
    for (size_t w = 0; w < MOST_WORDS; w++)
        words[w] = w == W_UNCLEAR || w >= STATE_LEN ? random64() : below(state_limit(w) + 1);
    words[W_LAST] = BOTH;
    words[W_STAGE] = 0;
}

/* The state is bad: 2, whatever the rest is. */
static void try_bad_state(const uint64_t *words, size_t state_len)
{
    lend_state(words, state_len);
    expect_refused(good, LENGTH, EVENTS, BAD_STATE);
    expect_refused(good, LENGTH, 0, BAD_STATE);
    expect_refused(good, 0, EVENTS, BAD_STATE);
    expect_refused(good, 0, 0, BAD_STATE);
    expect_refused(bad, LENGTH, EVENTS, BAD_STATE);
    expect_refused(bad, LENGTH, 0, BAD_STATE);
}

/* The state is good: 14 before 15, and neither for no samples. */
static void try_good_state(const uint64_t *words)
{
    lend_state(words, STATE_LEN);
    expect_refused(bad, LENGTH, EVENTS, BAD_SAMPLE);
    expect_refused(bad, LENGTH, 0, BAD_SAMPLE);
    expect_wires(good, 0, EVENTS, 0, 0, 0);
    expect_wires(good, 0, 0, 0, 0, 0);
    expect_state(words);
}

/* ---- Lengths ----------------------------------------------------------------------------- */

static void try_length(size_t state_len)
{
    uint64_t words[MOST_WORDS];
    random_state(words);
    if (state_len != STATE_LEN) {
        try_bad_state(words, state_len);
        return;
    }
    try_good_state(words);
    expect_wires(good, LENGTH, 0, NO_ROOM, BEFORE_FIRST, 0);
    lend_state(words, STATE_LEN);
    expect_wires(good, LENGTH, EVENTS, 0, LENGTH, EVENTS);
}

/* ---- Words ------------------------------------------------------------------------------- */

/* One word has this value, and a second one too may be out of its range. */
static void try_value(size_t word, uint64_t value)
{
    uint64_t words[MOST_WORDS];
    random_state(words);
    words[word] = value;
    if (value <= state_limit(word)) {
        try_good_state(words);
        return;
    }
    try_bad_state(words, STATE_LEN);
    words[W_LAST + below(4)] = 256;
    try_bad_state(words, STATE_LEN);
}

/* At the limit and just above, and values that a narrower number would cut. */
static void try_word(size_t word)
{
    uint64_t limit = state_limit(word);
    for (uint64_t value = 0; value <= 260; value++)
        try_value(word, value);
    for (unsigned bits = 8; bits < 64; bits++) {
        uint64_t high = (uint64_t)1 << bits;
        try_value(word, high - 1);
        try_value(word, high);
        try_value(word, high | limit);
        try_value(word, high | below(limit == UINT64_MAX ? 1 : limit + 1));
        try_value(word, 0 - high);
    }
    for (int i = 0; i < 64; i++)
        try_value(word, random64() << 8);
    try_value(word, UINT64_MAX);
    try_value(word, UINT64_MAX - 255);
    try_value(word, UINT64_MAX - 1);
}

void test_refusals(void)
{
    theme("refusals");
    for (int i = 0; i < 16; i++)
        for (size_t state_len = 0; state_len <= MOST_WORDS; state_len++)
            try_length(state_len);
    for (size_t word = 0; word < STATE_LEN; word++)
        try_word(word);
}
