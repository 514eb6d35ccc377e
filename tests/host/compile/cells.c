/* The `put` and `fill` lines: every place, every byte and rectangles at all edges, with V, MX and DO
 * in every mixture. */
#include "compile_calls.h"
#include "harness.h"
#include "records.h"
#include "themes.h"

static const unsigned columns[] = { 0, 1, 50, 99, 100, 101 };
static const unsigned banks[] = { 0, 1, 8, 15, 16, 17 };
static const unsigned bytes[] = { 0, 1, 63, 64, 255, 256 };

enum {
    COLUMNS = sizeof columns / sizeof columns[0],
    BANKS = sizeof banks / sizeof banks[0],
    BYTES = sizeof bytes / sizeof bytes[0]
};

static struct text text;

/* The number WRITE_MODES leaves V, MX and DO to chance. */
static void try_text(unsigned mode)
{
    struct compiled compiled;
    uint64_t words[MOST_WORDS];
    random_record(words);
    if (mode < WRITE_MODES)
        set_write_mode(words, mode);
    compare_list(words, &text, &compiled);
}

static void try_put(unsigned mode, unsigned column, unsigned bank, unsigned byte)
{
    clear_text(&text);
    add_put(&text, column, bank, byte);
    try_text(mode);
}

static void try_fill(unsigned mode, unsigned c0, unsigned c1, unsigned b0, unsigned b1,
                     unsigned byte)
{
    clear_text(&text);
    add_fill(&text, c0, c1, b0, b1, byte);
    try_text(mode);
}

static void try_places(unsigned mode)
{
    for (unsigned bank = 0; bank <= 17; bank++)
        for (unsigned column = 0; column <= 101; column++)
            try_put(mode, column, bank, (unsigned)below(bank == 16 ? 66 : 257));
}

static void try_bytes(unsigned mode)
{
    for (unsigned byte = 0; byte < 300; byte++) {
        try_put(mode, (unsigned)below(101), 0, byte);
        try_put(mode, (unsigned)below(101), 15, byte);
        try_put(mode, (unsigned)below(101), 16, byte);
        try_fill(mode, 7, 8, 14, 15, byte);
        try_fill(mode, 7, 8, 15, 16, byte);
    }
}

/* Rectangles with both ends at an edge or in the middle, turned round and outside among them. */
static void try_banks(unsigned mode, unsigned c0, unsigned c1)
{
    for (size_t b0 = 0; b0 < BANKS; b0++)
        for (size_t b1 = 0; b1 < BANKS; b1++)
            if (quick)
                try_fill(mode, c0, c1, banks[b0], banks[b1], bytes[below(BYTES)]);
            else
                for (size_t b = 0; b < BYTES; b++)
                    try_fill(mode, c0, c1, banks[b0], banks[b1], bytes[b]);
}

static void try_rectangles(unsigned mode)
{
    for (size_t c0 = 0; c0 < COLUMNS; c0++)
        for (size_t c1 = 0; c1 < COLUMNS; c1++)
            try_banks(mode, columns[c0], columns[c1]);
}

static void try_random(int times)
{
    for (int i = 0; i < times; i++) {
        clear_text(&text);
        add_random_fill(&text);
        try_text(WRITE_MODES);
    }
}

void test_cells(void)
{
    theme("cells");
    for (unsigned mode = 0; mode < WRITE_MODES; mode++) {
        if (!quick || mode % 3 == 0)
            try_places(mode);
        try_bytes(mode);
        try_rectangles(mode);
    }
    try_random(quick ? 1000 : 20000);
}
