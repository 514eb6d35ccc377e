/* Every byte in a cell, every number in each grey register, in all four modes of a lit glass. */
#include "glass_calls.h"
#include "records.h"
#include "themes.h"

enum { MODES = 4, BANKS = 17, NUMBERS = 64 };

static void lit_record(uint64_t *words, unsigned mode)
{
    random_record(words);
    words[W_PD] = 0;
    words[W_DOF] = 0;
    words[W_PS] = 0;
    words[W_D] = mode >> 1;
    words[W_E] = mode & 1;
}

/* The glass rows of a bank: four, three in the last one. */
static void try_bank(const uint64_t *words, uint64_t bank, uint64_t column)
{
    for (uint64_t ram_row = 4 * bank; ram_row < 4 * bank + 4 && ram_row < ROWS; ram_row++) {
        uint64_t row = words[W_MY] ? ROWS - 1 - ram_row : ram_row;
        if (compare_glass(row, column) < LEVEL)
            fail("a lit glass has no level");
        if (compare_place(row, column) != 512 + COLUMNS * bank + column)
            fail("the place is another one");
    }
}

static void try_bytes(unsigned mode)
{
    uint64_t words[MOST_WORDS];
    unsigned stride = quick ? 5 : 1;
    for (uint64_t bank = 0; bank < BANKS; bank++)
        for (unsigned byte = 0; byte < 256; byte += stride) {
            uint64_t column = below(COLUMNS);
            lit_record(words, mode);
            for (uint64_t i = 0; i < 4; i++)
                words[W_GS0 + i] = 10 * i + below(10);
            glass_record(words);
            glass_byte(COLUMNS * bank + column, (uint8_t)byte);
            try_bank(words, bank, column);
        }
}

/* One register runs through all that it can hold, the others stand somewhere else. */
static void try_levels(unsigned mode)
{
    uint64_t words[MOST_WORDS];
    for (size_t grey = 0; grey < 4; grey++)
        for (uint64_t held = 0; held < NUMBERS; held++) {
            uint64_t bank = below(BANKS);
            uint64_t column = below(COLUMNS);
            lit_record(words, mode);
            words[W_GS0 + grey] = held;
            glass_record(words);
            glass_byte(COLUMNS * bank + column, 0xE4);
            try_bank(words, bank, column);
        }
}

void test_levels(void)
{
    theme("levels");
    for (unsigned mode = 0; mode < MODES; mode++) {
        glass_lend_usual();
        try_bytes(mode);
        try_levels(mode);
    }
}
