#include "glass.h"

#include "model.h"
#include "words.h"

enum refusal { BAD_MEMORY = 1, BAD_RECORD = 2, OFF_THE_GLASS = 5 };

enum shown { DARK = 256, UNDRIVEN = 257, LEVEL = 512, PLACE = 512 };

/* The row of the memory that a row of the glass shows. */
static uint64_t ram_row(const uint64_t *record, uint64_t row)
{
    return record[MY] ? ROWS - 1 - row : row;
}

static uint64_t place_of(uint64_t ram_row, uint64_t column)
{
    return COLUMNS * (ram_row / ROWS_OF_A_BANK) + column;
}

/* The rows of a bank take two bits of its byte each, from the lowest up. */
static unsigned value_of(uint8_t byte, uint64_t ram_row)
{
    unsigned k = ram_row % ROWS_OF_A_BANK;
    unsigned high = byte >> (2 * k + 1) & 1;
    unsigned low = byte >> (2 * k) & 1;
    return 2 * high + low;
}

/* On a partial screen, whether this row of the memory is in the part. */
static bool in_part(uint64_t part, uint64_t ram_row)
{
    if (part == 0)
        return ram_row <= 7;
    if (part == 7)
        return ram_row >= 56 && ram_row <= 63;
    return false;
}

static unsigned grey_register(const uint64_t *record, unsigned value)
{
    switch (2 * record[D] + record[E]) {
    case 0: return 0;
    case 1: return 3;
    case 2: return value;
    default: return 3 - value;
    }
}

/* Full black is 64; the chip has 63, the most that a register can hold, stand for it. */
static uint64_t level_of(uint64_t held)
{
    return held == 63 ? 64 : held;
}

static uint64_t shown(const uint64_t *record, const uint8_t *memory, uint64_t row, uint64_t column)
{
    uint64_t shown_row = ram_row(record, row);
    if (record[PD] || record[DOF])
        return DARK;
    if (record[PS] && !in_part(record[DP], shown_row))
        return UNDRIVEN;
    unsigned value = value_of(memory[place_of(shown_row, column)], shown_row);
    return LEVEL + level_of(record[GS0 + grey_register(record, value)]);
}

static bool on_the_glass(uint64_t row, uint64_t column)
{
    return row < ROWS && column < COLUMNS;
}

uint64_t model_glass(const uint64_t *record, size_t record_len,
                     const uint8_t *memory, size_t memory_len,
                     uint64_t row, uint64_t column)
{
    if (memory_len != PLACES)
        return BAD_MEMORY;
    if (!model_allowed(record, record_len))
        return BAD_RECORD;
    if (!on_the_glass(row, column))
        return OFF_THE_GLASS;
    return shown(record, memory, row, column);
}

uint64_t model_place(const uint64_t *record, size_t record_len, uint64_t row, uint64_t column)
{
    if (!model_allowed(record, record_len))
        return BAD_RECORD;
    if (!on_the_glass(row, column))
        return OFF_THE_GLASS;
    return PLACE + place_of(ram_row(record, row), column);
}
