/* Room for the output, and lists as long as they may be and longer. */
#include "compile_calls.h"
#include "harness.h"
#include "records.h"
#include "themes.h"

#include <string.h>

static struct text text;

static void try_random(int times, uint64_t most_lines)
{
    uint64_t words[MOST_WORDS];
    for (int i = 0; i < times; i++) {
        random_record(words);
        random_list(&text, below(most_lines + 1));
        compare_rooms(words, &text);
    }
}

/* ---- The longest stream ------------------------------------------------------------------ */

static void try_room(const uint64_t *words, size_t need, size_t room)
{
    struct compiled compiled;
    uint64_t result = compare_compile(words, RECORD_LEN, &text, room, &compiled);
    if (result != (room < need ? 10 : 0) || compiled.length != need)
        fail("this list needs %zu events", need);
}

/* As many fills of the whole glass as a list can hold: 17 runs of 101 bytes each, or 101 runs of 17,
 * with ten events around the bytes of a run. */
static void try_longest(uint64_t v)
{
    uint64_t words[MOST_WORDS];
    size_t need = (size_t)MOST_NEWLINES * (v ? 101 * (10 + 17) : 17 * (10 + 101));
    random_record(words);
    words[W_V] = v;
    clear_text(&text);
    for (int i = 0; i < MOST_NEWLINES; i++)
        add_fill(&text, 0, 100, 0, 16, (unsigned)below(64));
    try_room(words, need, 0);
    if (quick)
        return;
    try_room(words, need, 65536);
    try_room(words, need, need - 1);
    try_room(words, need, need);
    try_room(words, need, need + 1);
}

/* ---- The number of lines ----------------------------------------------------------------- */

static void make_lines(const char *line, uint64_t lines, const char *fragment)
{
    clear_text(&text);
    for (uint64_t i = 0; i < lines; i++)
        add_text(&text, "%s\n", line);
    add_text(&text, "%s", fragment);
}

static void try_lines(const char *line, uint64_t lines, const char *fragment, uint64_t refusal,
                      uint64_t at)
{
    uint64_t words[MOST_WORDS];
    random_record(words);
    make_lines(line, lines, fragment);
    expect_refusal(words, &text, refusal, at);
}

static void try_many_lines(void)
{
    static const char good[] = "put\t7\t16\t63", malformed[] = "put\t7\t16", wide[] = "put\t7\t16\t64";
    try_lines(good, 4095, "", 0, 0);
    try_lines(good, 4096, "", 0, 0);
    try_lines(good, 4097, "", 9, 0);
    try_lines(good, 4098, "", 9, 0);
    try_lines(good, 8192, "", 9, 0);
    try_lines(good, 4095, "p", 6, 4096);
    try_lines(good, 4096, "p", 6, 4097);
    try_lines(good, 4096, good, 6, 4097);
    try_lines(good, 4096, wide, 6, 4097);
    try_lines(good, 4097, "p", 9, 0);
    try_lines(malformed, 4096, "", 6, 1);
    try_lines(malformed, 4097, "", 9, 0);
    try_lines(wide, 4096, "", 7, 1);
    try_lines(wide, 4096, "p", 7, 1);
    try_lines(wide, 4097, "", 9, 0);
    try_lines("", 4096, "", 6, 1);
    try_lines("", 4097, "", 9, 0);
    try_lines("", 65536, "", 9, 0);
    try_lines("", 65536 + 4096, "", 9, 0);
    try_lines("", MOST_TEXT - 1, "", 9, 0);
}

/* One bad line among 4,096. */
static void try_bad_line_at(uint64_t at)
{
    uint64_t words[MOST_WORDS];
    random_record(words);
    clear_text(&text);
    for (uint64_t line = 1; line <= MOST_NEWLINES; line++)
        add_put(&text, 1, 16, line == at ? 64 : 63);
    expect_refusal(words, &text, 7, at);
}

/* Lines that are very long. */
static void try_long_lines(void)
{
    static const char bytes[] = { 'p', '0', '1', '\t', ' ', '\0' };
    uint64_t words[MOST_WORDS];
    for (size_t i = 0; i < sizeof bytes; i++)
        for (size_t length = 255; length <= 65536; length = 2 * length + 1) {
            random_record(words);
            clear_text(&text);
            add_put(&text, 1, 2, 3);
            memset(text.bytes + text.length, bytes[i], length);
            text.length += length;
            expect_refusal(words, &text, 6, 2);
            add_bytes(&text, "\n", 1);
            expect_refusal(words, &text, 6, 2);
        }
}

void test_rooms(void)
{
    theme("rooms");
    try_random(quick ? 200 : 3000, 12);
    try_random(quick ? 5 : 100, 300);
    try_random(quick ? 1 : 10, MOST_NEWLINES);
    try_many_lines();
    for (uint64_t at = 1; at <= MOST_NEWLINES; at += quick ? 1365 : 195)
        try_bad_line_at(at);
    try_long_lines();
    theme("longest streams");
    try_longest(0);
    try_longest(1);
}
