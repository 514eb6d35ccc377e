/* Every row and column, with records of all kinds. */
#include "glass_calls.h"
#include "records.h"
#include "themes.h"

static void try_pixels(const uint64_t *words)
{
    glass_lend_usual();
    glass_record(words);
    for (uint64_t row = 0; row < ROWS; row++)
        for (uint64_t column = 0; column < COLUMNS; column++)
            compare_pixel(row, column);
}

static void light(uint64_t *words)
{
    words[W_PD] = 0;
    words[W_DOF] = 0;
}

/* The screen modes that have a rule of their own, lit, either way up. */
static void try_screens(void)
{
    static const uint64_t parts[] = { 0, 1, 6, 7 };
    uint64_t words[MOST_WORDS];
    for (uint64_t my = 0; my < 2; my++)
        for (size_t p = 0; p < sizeof parts / sizeof parts[0]; p++)
            for (uint64_t ps = 0; ps < 2; ps++) {
                random_record(words);
                light(words);
                words[W_MY] = my;
                words[W_PS] = ps;
                words[W_DP] = parts[p];
                try_pixels(words);
            }
}

void test_whole_glass(void)
{
    uint64_t words[MOST_WORDS];
    theme("whole glass");
    reset_record(words, 1);
    try_pixels(words);
    full_record(words);
    try_pixels(words);
    light(words);
    try_pixels(words);
    for (int i = 0; i < (quick ? 4 : 40); i++) {
        random_record(words);
        if (i % 4)
            light(words);
        try_pixels(words);
    }
    try_screens();
}
