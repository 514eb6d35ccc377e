#include "pixels.h"

#include "words.h"

enum { BAD_MEMORY = 1 };

/* The rows of a bank take two bits of its byte each, from the lowest up; the higher one is worth 2. */
static unsigned value_at(const uint8_t *memory, unsigned row, unsigned column)
{
    unsigned byte = memory[COLUMNS * (row / ROWS_OF_A_BANK) + column];
    unsigned k = row % ROWS_OF_A_BANK;
    return 2 * (byte >> (2 * k + 1) & 1) + (byte >> (2 * k) & 1);
}

/* Pixel by pixel: a bit that is in no row is never met. */
uint64_t model_counts(const uint8_t *memory, size_t memory_len,
                      uint64_t *n0, uint64_t *n1, uint64_t *n2, uint64_t *n3)
{
    uint64_t counts[VALUES] = { 0 };
    if (memory_len == PLACES)
        for (unsigned row = 0; row < ROWS; row++)
            for (unsigned column = 0; column < COLUMNS; column++)
                counts[value_at(memory, row, column)]++;
    *n0 = counts[0];
    *n1 = counts[1];
    *n2 = counts[2];
    *n3 = counts[3];
    return memory_len == PLACES ? 0 : BAD_MEMORY;
}
