/* The `set` lines: every field with every value, from every page and phase and with V, MX and DO in
 * every mixture; then every field after every other, since a row carries its neighbours along. */
#include "compile_calls.h"
#include "harness.h"
#include "records.h"
#include "themes.h"

static struct text text;

/* What a number is worth: good, too wide for the field, or no number of a list. */
static uint64_t refusal_of(size_t word, unsigned value)
{
    if (value > 999)
        return 6;
    return value > word_limit(word) ? 7 : 0;
}

static void try_value(size_t word, unsigned value)
{
    uint64_t words[MOST_WORDS];
    uint64_t refusal = refusal_of(word, value);
    clear_text(&text);
    add_set(&text, word, value);
    for (unsigned mode = 0; mode < WRITE_MODES; mode++)
        for (uint64_t page = 0; page <= LAST_PAGE; page++)
            for (size_t p = 0; p < (quick ? 1 : PHASES); p++) {
                random_record(words);
                set_write_mode(words, mode);
                set_phase(words, &bus_phases[quick ? below(PHASES) : p]);
                words[W_H] = page;
                expect_refusal(words, &text, refusal, refusal != 0);
            }
}

static void try_field(size_t word)
{
    static const unsigned wide[] = { 255, 256, 257, 511, 512, 999, 1000 };
    unsigned limit = (unsigned)word_limit(word);
    for (unsigned value = 0; value <= limit + 1; value++)
        try_value(word, value);
    for (size_t i = 0; i < sizeof wide / sizeof wide[0]; i++)
        try_value(word, wide[i]);
}

/* The fill at the end shows what the compiler believes V, MX and DO to be. */
static void try_pair(size_t first, size_t second)
{
    struct compiled compiled;
    uint64_t words[MOST_WORDS];
    random_record(words);
    clear_text(&text);
    add_set(&text, first, (unsigned)below(word_limit(first) + 1));
    add_set(&text, second, (unsigned)below(word_limit(second) + 1));
    add_fill(&text, 3, 5, 15, 16, (unsigned)below(64));
    if (compare_list(words, &text, &compiled) != 0)
        fail("a good list is refused");
}

/* One bit after another, from a record that is all zeros or all ones. */
static void try_edges(void)
{
    struct compiled compiled;
    uint64_t words[MOST_WORDS];
    for (size_t f = 0; f < FIELDS; f++)
        for (unsigned start = 0; start < 2; start++) {
            reset_record(words, 0);
            words[W_PD] = words[W_DOF] = 0;
            if (start)
                full_record(words);
            clear_text(&text);
            add_set(&text, field_words[f], start ? 0 : (unsigned)word_limit(field_words[f]));
            add_put(&text, 17, 3, 0x4B);
            compare_list(words, &text, &compiled);
        }
}

void test_fields(void)
{
    theme("fields");
    try_edges();
    for (size_t f = 0; f < FIELDS; f++)
        try_field(field_words[f]);
    for (size_t a = 0; a < FIELDS; a++)
        for (size_t b = 0; b < FIELDS; b++)
            for (int i = 0; i < (quick ? 2 : 16); i++)
                try_pair(field_words[a], field_words[b]);
}
