/* Single lines, good and bad, alone and among others: the refusal and the line's number. */
#include "compile_calls.h"
#include "harness.h"
#include "records.h"
#include "themes.h"

#include <string.h>

struct single {
    const char *bytes;
    size_t length;
    uint64_t refusal;
};

#define LINE(refusal, line) { line, sizeof line - 1, refusal }

static const struct single singles[] = {
    /* the edges of what is good */
    LINE(0, "put\t0\t0\t0"), LINE(0, "put\t100\t0\t255"), LINE(0, "put\t0\t16\t63"),
    LINE(0, "put\t100\t15\t255"), LINE(0, "put\t9\t9\t9"), LINE(0, "put\t10\t10\t99"),
    LINE(0, "fill\t0\t100\t0\t16\t63"), LINE(0, "fill\t0\t100\t0\t15\t255"),
    LINE(0, "fill\t100\t100\t16\t16\t63"), LINE(0, "fill\t0\t0\t0\t0\t0"),
    LINE(0, "set\tpd\t0"), LINE(0, "set\tpd\t1"), LINE(0, "set\tvop\t127"), LINE(0, "set\tbs\t7"),
    LINE(0, "set\tgs0\t63"), LINE(0, "set\tgs3\t63"), LINE(0, "set\toc\t1"),

    /* out of range */
    LINE(7, "put\t101\t0\t0"), LINE(7, "put\t0\t17\t0"), LINE(7, "put\t0\t0\t256"),
    LINE(7, "put\t0\t16\t64"), LINE(7, "put\t0\t16\t255"), LINE(7, "put\t100\t16\t256"),
    LINE(7, "put\t999\t999\t999"), LINE(7, "put\t256\t0\t0"), LINE(7, "put\t0\t256\t0"),
    LINE(7, "put\t0\t272\t0"), LINE(7, "put\t512\t512\t512"),
    LINE(7, "fill\t1\t0\t0\t0\t0"), LINE(7, "fill\t0\t0\t1\t0\t0"), LINE(7, "fill\t5\t3\t9\t2\t0"),
    LINE(7, "fill\t0\t101\t0\t0\t0"), LINE(7, "fill\t101\t101\t0\t0\t0"),
    LINE(7, "fill\t101\t0\t0\t0\t0"), LINE(7, "fill\t0\t0\t0\t17\t0"),
    LINE(7, "fill\t0\t0\t17\t17\t0"), LINE(7, "fill\t0\t0\t17\t0\t0"),
    LINE(7, "fill\t0\t0\t0\t0\t256"), LINE(7, "fill\t0\t0\t0\t16\t64"),
    LINE(7, "fill\t0\t0\t16\t16\t64"), LINE(7, "fill\t0\t100\t0\t16\t255"),
    LINE(7, "fill\t0\t0\t16\t0\t64"), LINE(7, "fill\t0\t0\t0\t17\t64"),
    LINE(7, "fill\t300\t301\t0\t0\t0"), LINE(7, "fill\t256\t257\t256\t257\t256"),
    LINE(7, "set\tpd\t2"), LINE(7, "set\tpd\t255"), LINE(7, "set\tpd\t256"),
    LINE(7, "set\tpd\t257"), LINE(7, "set\tpd\t999"), LINE(7, "set\tvop\t128"),
    LINE(7, "set\tvop\t256"), LINE(7, "set\tbs\t8"), LINE(7, "set\tgs0\t64"), LINE(7, "set\toc\t2"),

    /* numbers that are none */
    LINE(6, "put\t00\t0\t0"), LINE(6, "put\t01\t0\t0"), LINE(6, "put\t000\t0\t0"),
    LINE(6, "put\t0\t010\t0"), LINE(6, "put\t0\t0\t1000"), LINE(6, "put\t0\t0\t0000"),
    LINE(6, "put\t0\t0\t-1"), LINE(6, "put\t0\t0\t+1"), LINE(6, "put\t0\t0\t0x1"),
    LINE(6, "put\t0\t0\t1e1"), LINE(6, "put\t0\t0\t1.0"), LINE(6, "put\t0\t0\t1,"),
    LINE(6, "put\t0\t0\t/"), LINE(6, "put\t0\t0\t:"), LINE(6, "put\t0\t0\t1/"),
    LINE(6, "put\t0\t0\t1:"), LINE(6, "put\t0\t0\ta"), LINE(6, "put\t0\t0\t "),
    LINE(6, "put\t0\t0\t\xB1"), LINE(6, "put\t0\t0\t\xD9\xA3"), LINE(6, "put\t0\t0\t\xEF\xBC\x91"),
    LINE(6, "put\t0\t0\t18446744073709551616"), LINE(6, "put\t0\t0\t4294967296"),
    LINE(6, "set\tpd\t1000"), LINE(6, "set\tpd\t00"), LINE(6, "set\tpd\t01"), LINE(6, "set\tpd\t"),
    LINE(6, "set\tpd\tpd"), LINE(6, "fill\t0\t0\t0\t0\t1000"), LINE(6, "fill\t0\t0\t0\t00\t0"),

    /* fields too few, too many or empty */
    LINE(6, ""), LINE(6, "\t"), LINE(6, "\t\t\t"), LINE(6, "\t\t\t\t\t\t\t\t"),
    LINE(6, "put"), LINE(6, "put\t"), LINE(6, "put\t0"), LINE(6, "put\t0\t0"), LINE(6, "put\t0\t0\t"),
    LINE(6, "put\t0\t0\t0\t"), LINE(6, "put\t0\t0\t0\t0"), LINE(6, "put\t0\t0\t0\t0\t0"),
    LINE(6, "\tput\t0\t0\t0"), LINE(6, "put\t\t0\t0\t0"), LINE(6, "put\t0\t\t0\t0"),
    LINE(6, "put\t0\t\t0"), LINE(6, "put\t\t0\t0"), LINE(6, "\t0\t0\t0"),
    LINE(6, "fill"), LINE(6, "fill\t0\t0\t0"), LINE(6, "fill\t0\t0\t0\t0"),
    LINE(6, "fill\t0\t0\t0\t0\t0\t"), LINE(6, "fill\t0\t0\t0\t0\t0\t0"),
    LINE(6, "fill\t0\t\t0\t0\t0\t0"), LINE(6, "fill\t0\t0\t0\t0\t0\t0\t0\t0"),
    LINE(6, "set"), LINE(6, "set\t"), LINE(6, "set\tpd"), LINE(6, "set\tpd\t1\t"),
    LINE(6, "set\tpd\t1\t1"), LINE(6, "set\t\tpd\t1"), LINE(6, "set\tpd\t\t1"), LINE(6, "set\t\t1"),
    LINE(6, "set\t1\tpd"), LINE(6, "set\t0\t0\t0"), LINE(6, "set\t0\t0\t0\t0\t0"),

    /* other bytes than a tab between and beside the fields */
    LINE(6, "put 0 0 0"), LINE(6, "put\t0 0\t0"), LINE(6, " put\t0\t0\t0"), LINE(6, "put \t0\t0\t0"),
    LINE(6, "put\t 0\t0\t0"), LINE(6, "put\t0\t0\t0 "), LINE(6, "set pd 1"), LINE(6, "set\tpd 1"),
    LINE(6, "put\t0\t0\t0\r"), LINE(6, "\r"), LINE(6, "set\tpd\t1\r"), LINE(6, "put\t0\t0\t0\v"),
    LINE(6, "put\t0\t0\t0\f"), LINE(6, "put\t0\t0\t0\0"), LINE(6, "\0"), LINE(6, "put\0\t0\t0\t0"),
    LINE(6, "put\t0\t0\0\t0"), LINE(6, "set\tpd\0\t1"), LINE(6, "\0put\t0\t0\t0"),
    LINE(6, "\xEF\xBB\xBFput\t0\t0\t0"), LINE(6, "\xFF"), LINE(6, "put\t0\t0\t0\x80"),
    LINE(6, "\xF0ut\t0\t0\t0"), LINE(6, "put\x89\x30\t0\t0"),

    /* words and fields that are unknown */
    LINE(6, "PUT\t0\t0\t0"), LINE(6, "Put\t0\t0\t0"), LINE(6, "pu\t0\t0\t0"),
    LINE(6, "puts\t0\t0\t0"), LINE(6, "fil\t0\t0\t0\t0\t0"), LINE(6, "fills\t0\t0\t0\t0\t0"),
    LINE(6, "fill\t0\t0\t0"), LINE(6, "put\t0\t0\t0\t0\t0"), LINE(6, "se\tpd\t1"),
    LINE(6, "sett\tpd\t1"), LINE(6, "get\tpd\t1"), LINE(6, "rep\t2"), LINE(6, "end"),
    LINE(6, "# put"), LINE(6, "0\t0\t0"), LINE(6, "set\th\t0"), LINE(6, "set\tx\t0"),
    LINE(6, "set\ty\t0"), LINE(6, "set\tgr\t0"), LINE(6, "set\tgs\t0"), LINE(6, "set\tgs4\t0"),
    LINE(6, "set\tgs00\t0"), LINE(6, "set\tPD\t0"), LINE(6, "set\tp\t0"), LINE(6, "set\tpdd\t0"),
    LINE(6, "set\tb\t0"), LINE(6, "set\tbshh\t0"), LINE(6, "set\tvo\t0"), LINE(6, "set\tvopp\t0"),
    LINE(6, "set\tt\t0"), LINE(6, "set\tgs-1\t0"), LINE(6, "set\tsa\t0"), LINE(6, "set\ttr\t0"),
    LINE(6, "set\tgr\t4"), LINE(6, "set\th\t999"), LINE(6, "set\tput\t0"), LINE(6, "set\tset\t0"),

    /* both faults: malformed comes first */
    LINE(6, "put\t101\t0\tx"), LINE(6, "put\t999\t999\t0999"), LINE(6, "put\t0\t16\t64\t"),
    LINE(6, "put\t101\t17\t1000"), LINE(6, "fill\t5\t3\t0\t0\t01"), LINE(6, "fill\t0\t101\t0\t0\t"),
    LINE(6, "fill\t9\t3\t9\t3\t999\t0"), LINE(6, "fill\t0\t0\t0\t17\t-1"), LINE(6, "set\tpd\t2\t"),
    LINE(6, "set\tpd\t256x"), LINE(6, "set\tgr\t256"), LINE(6, "put\t300\t0"),
};

enum { SINGLES = sizeof singles / sizeof singles[0] };

static struct text text;

static void add_good_lines(uint64_t lines)
{
    for (uint64_t i = 0; i < lines; i++)
        add_random_line(&text);
}

/* The line as number `at`, with or without its newline. */
static void add_at(const struct single *single, uint64_t at, bool newline)
{
    clear_text(&text);
    add_good_lines(at - 1);
    add_bytes(&text, single->bytes, single->length);
    if (newline)
        add_bytes(&text, "\n", 1);
}

static uint64_t line_of(uint64_t refusal, uint64_t at)
{
    return refusal == 0 ? 0 : at;
}

/* A fragment with no bytes is no line. */
static void try_without_newline(const uint64_t *words, const struct single *single, uint64_t at)
{
    bool is_line = single->length > 0;
    add_at(single, at, false);
    expect_refusal(words, &text, is_line ? 6 : 0, is_line ? at : 0);
}

/* What comes after a bad line does not matter; a bad line after a good one does. */
static void try_followed(const uint64_t *words, const struct single *single, uint64_t at)
{
    const struct single *other = &singles[below(SINGLES)];
    uint64_t more = below(3);
    add_at(single, at, true);
    add_good_lines(more);
    add_bytes(&text, other->bytes, other->length);
    add_bytes(&text, "\n", 1);
    if (single->refusal != 0)
        expect_refusal(words, &text, single->refusal, at);
    else
        expect_refusal(words, &text, other->refusal, line_of(other->refusal, at + more + 1));
}

static void try_single(const struct single *single, uint64_t at)
{
    uint64_t words[MOST_WORDS];
    random_record(words);
    add_at(single, at, true);
    expect_refusal(words, &text, single->refusal, line_of(single->refusal, at));
    try_without_newline(words, single, at);
    for (int i = 0; i < (quick ? 2 : 20); i++)
        try_followed(words, single, at);
}

/* The two bad lines side by side in either order, the first one counts. */
static void try_first_counts(void)
{
    uint64_t words[MOST_WORDS];
    random_record(words);
    clear_text(&text);
    add_text(&text, "put\t0\t16\t64\nput\n");
    expect_refusal(words, &text, 7, 1);
    clear_text(&text);
    add_text(&text, "put\nput\t0\t16\t64\n");
    expect_refusal(words, &text, 6, 1);
    clear_text(&text);
    add_text(&text, "set\tpd\t2\nput\t0\t0\t0");
    expect_refusal(words, &text, 7, 1);
    clear_text(&text);
    add_text(&text, "put\t0\t0\t0\nset\tpd\t2");
    expect_refusal(words, &text, 6, 2);
    clear_text(&text);
    expect_refusal(words, &text, 0, 0);
}

void test_lines(void)
{
    theme("lines");
    try_first_counts();
    for (size_t s = 0; s < SINGLES; s++) {
        try_single(&singles[s], 1);
        try_single(&singles[s], 2 + below(6));
        if (!quick)
            try_single(&singles[s], 250 + below(12));
    }
}
