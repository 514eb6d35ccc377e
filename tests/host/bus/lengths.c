/* Lengths and words: each of the twelve buffers with another length, alone and beside another one, and
 * each word of each record with a number that is not allowed. */
#include "buses.h"
#include "themes.h"

enum { KINDS = 3, LENGTHS = 4, BUFFERS = CHIPS * KINDS, ODD = BUFFERS * LENGTHS };

/* A record of 34 words is one of the time before it had counts of pixels. */
static const size_t odd_lengths[KINDS][LENGTHS] = {
    { 0, 34, RECORD_LEN - 1, RECORD_LEN + 1 }, { 0, 1, PLACES - 1, PLACES + 1 }, { 0, 1, PLACES - 1, PLACES + 1 }
};

/* Gives the refusal of this length: that of a record is 2, that of a memory 1. */
static uint64_t make_odd(struct lengths lengths[CHIPS], unsigned odd)
{
    struct lengths *of = &lengths[odd / LENGTHS / KINDS];
    unsigned kind = odd / LENGTHS % KINDS;
    size_t length = odd_lengths[kind][odd % LENGTHS];
    if (kind == 0)
        of->record = length;
    else if (kind == 1)
        of->memory = length;
    else
        of->writers = length;
    return kind == 0 ? BAD_RECORD : BAD_MEMORY;
}

static void try_events(uint64_t right)
{
    static const uint16_t events[] = { START, 0x79, 261, SENSOR };
    for (size_t e = 0; e < sizeof events / sizeof events[0]; e++) {
        random_bus((unsigned)below(STANDINGS));
        bus_count(below(2) ? UINT64_MAX : below(1000));
        expect_bus(events[e], odd_pins[below(ODD_PINS)], right);
    }
}

static void try_pair(unsigned one, unsigned other, enum where where)
{
    struct lengths lengths[CHIPS] = { good_lengths, good_lengths, good_lengths, good_lengths };
    uint64_t first = make_odd(lengths, one);
    uint64_t second = make_odd(lengths, other);
    if (one / LENGTHS == other / LENGTHS)
        first = second;
    bus_lend(lengths, where);
    try_events(first < second ? first : second);
}

static void try_lengths(void)
{
    for (unsigned one = 0; one < ODD; one++)
        for (unsigned other = one; other < ODD; other += quick ? 5 : 1) {
            try_pair(one, other, AT_END);
            if (!quick)
                try_pair(one, other, AT_START);
        }
}

/* ---- Words ------------------------------------------------------------------------------- */

static void try_value(size_t chip, size_t word, uint64_t value)
{
    uint64_t words[CHIPS][MOST_WORDS];
    random_records(words, (unsigned)below(STANDINGS));
    words[chip][word] = value;
    set_records(words);
    bus_count(below(2) ? UINT64_MAX : below(1000));
    expect_bus((uint16_t)below(1000), odd_pins[below(ODD_PINS)], BAD_RECORD);
}

/* Just above the limit, and values that a narrower number would cut. */
static void try_word(size_t chip, size_t word)
{
    uint64_t limit = word_limit(word);
    bus_lend_usual();
    try_value(chip, word, limit + 1);
    try_value(chip, word, 256 + limit);
    try_value(chip, word, 65536);
    try_value(chip, word, (uint64_t)1 << 32);
    try_value(chip, word, ((uint64_t)1 << 32) + limit);
    try_value(chip, word, (uint64_t)1 << 63);
    try_value(chip, word, UINT64_MAX);
}

/* An RS in a phase that has none. */
static void try_phase_rs(size_t chip)
{
    for (unsigned standing = 0; standing < STANDINGS; standing++) {
        uint64_t words[CHIPS][MOST_WORDS];
        random_records(words, standing);
        if (words[chip][W_PHASE] == 4 || words[chip][W_PHASE] == 5)
            continue;
        words[chip][W_PHASE_RS] = 1;
        set_records(words);
        expect_bus(START, 0, BAD_RECORD);
    }
}

void test_lengths(void)
{
    theme("lengths");
    try_lengths();
    theme("words");
    for (size_t chip = 0; chip < CHIPS; chip++) {
        for (size_t word = 0; word < RECORD_LEN; word++)
            try_word(chip, word);
        try_phase_rs(chip);
    }
}
