/* Texts that are cut, changed, or made of the right bytes in the wrong order. */
#include "compile_calls.h"
#include "harness.h"
#include "records.h"
#include "themes.h"

#include <string.h>

static struct text good, text;

/* Every word and every field, with numbers of one, two and three digits. */
static void make_good(void)
{
    clear_text(&good);
    add_put(&good, 5, 2, 167);
    add_fill(&good, 99, 100, 15, 16, 63);
    for (size_t f = 0; f < FIELDS; f++)
        add_set(&good, field_words[f], (unsigned)below(word_limit(field_words[f]) + 1));
    add_put(&good, 100, 16, 0);
    add_fill(&good, 0, 10, 9, 10, 255);
}

static void try_text(void)
{
    struct compiled compiled;
    uint64_t words[MOST_WORDS];
    random_record(words);
    compare_list(words, &text, &compiled);
}

/* Good where it is cut behind a newline, else bad at the line that was cut. */
static void try_cuts(void)
{
    uint64_t words[MOST_WORDS];
    uint64_t line = 1;
    text = good;
    for (size_t cut = 0; cut <= good.length; cut++) {
        bool whole = cut == 0 || good.bytes[cut - 1] == '\n';
        random_record(words);
        text.length = cut;
        expect_refusal(words, &text, whole ? 0 : 6, whole ? 0 : line);
        line += good.bytes[cut] == '\n';
    }
}

static void try_changed_bytes(void)
{
    text = good;
    for (size_t at = 0; at < good.length; at++) {
        for (unsigned byte = 0; byte < 256; byte += quick ? 1 + (unsigned)below(16) : 1) {
            text.bytes[at] = (uint8_t)byte;
            try_text();
        }
        text.bytes[at] = good.bytes[at];
    }
}

static void replace(size_t at, size_t removed, const void *added, size_t length)
{
    clear_text(&text);
    add_bytes(&text, good.bytes, at);
    add_bytes(&text, added, length);
    add_bytes(&text, good.bytes + at + removed, good.length - at - removed);
}

static void try_added_and_removed(void)
{
    static const uint8_t added[] = { '\t', '\n', '\r', ' ', '0', '1', '9', 'p', 's', 0, 0x80, 0xFF };
    for (size_t at = 0; at < good.length; at++) {
        for (size_t i = 0; i < sizeof added; i++) {
            replace(at, 0, &added[i], 1);
            try_text();
        }
        for (size_t removed = 1; removed <= 3 && at + removed <= good.length; removed++) {
            replace(at, removed, "", 0);
            try_text();
        }
    }
}

/* A piece of the text once more, or left out. */
static void try_pieces(int times)
{
    for (int i = 0; i < times; i++) {
        size_t from = (size_t)below(good.length);
        size_t length = (size_t)below(good.length - from);
        replace((size_t)below(good.length), 0, good.bytes + from, length);
        try_text();
        replace(from, length, "", 0);
        try_text();
    }
}

/* Whole fields thrown together: often a good line, often nearly one. */
static void try_soup(int times)
{
    static const char *const pieces[] = {
        "put", "fill", "set", "\t", "\t", "\t", "\t", "\n", "\n", "0", "1", "16", "17", "63", "64",
        "100", "101", "255", "256", "pd", "v", "gs0", "mx", "vop", "x", " ", "\r", "00", "1000"
    };
    for (int i = 0; i < times; i++) {
        clear_text(&text);
        for (uint64_t n = 1 + below(24); n > 0; n--)
            add_text(&text, "%s", pieces[below(sizeof pieces / sizeof pieces[0])]);
        if (below(2))
            add_text(&text, "\n");
        try_text();
    }
}

/* Lines of the right shape, with numbers around every limit. */
static void add_shaped_line(void)
{
    static const unsigned numbers[] = {
        0, 1, 2, 3, 7, 8, 15, 16, 17, 31, 63, 64, 99, 100, 101, 127, 128, 255, 256, 512, 999, 1000
    };
    static const char *const words[] = { "put", "fill", "fill", "set" };
    size_t word = (size_t)below(4);
    unsigned count = word == 0 ? 3 : word == 3 ? 1 : 5;
    add_text(&text, "%s", words[word]);
    if (word == 3)
        add_text(&text, "\t%s", word_name(below(30)));
    for (unsigned i = 0; i < count; i++)
        add_text(&text, "\t%u", numbers[below(below(8) ? 14 : sizeof numbers / sizeof numbers[0])]);
    add_text(&text, "\n");
}

static void try_shaped(int times)
{
    for (int i = 0; i < times; i++) {
        clear_text(&text);
        for (uint64_t n = 1 + below(4); n > 0; n--)
            add_shaped_line();
        try_text();
    }
}

static void try_noise(int times)
{
    for (int i = 0; i < times; i++) {
        clear_text(&text);
        for (uint64_t n = below(60); n > 0; n--) {
            uint8_t byte = (uint8_t)random64();
            add_bytes(&text, &byte, 1);
        }
        try_text();
    }
}

void test_damage(void)
{
    theme("damage");
    make_good();
    try_cuts();
    try_changed_bytes();
    try_added_and_removed();
    try_pieces(quick ? 500 : 10000);
    try_soup(quick ? 2000 : 50000);
    try_shaped(quick ? 2000 : 50000);
    try_noise(quick ? 500 : 10000);
}
