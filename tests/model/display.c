#include "display.h"

#include "bus.h"

/* DB7 and DB0 change places, DB6 and DB1, and so on: halves, then pairs, then single bits. */
static uint8_t swapped(uint8_t byte)
{
    unsigned b = byte;
    b = (b & 0xF0) >> 4 | (b & 0x0F) << 4;
    b = (b & 0xCC) >> 2 | (b & 0x33) << 2;
    b = (b & 0xAA) >> 1 | (b & 0x55) << 1;
    return (uint8_t)b;
}

/* Where a display byte is stored, and what is stored of it. */
static unsigned place_now(const struct chip *chip)
{
    unsigned x = chip->now[X];
    unsigned column = chip->now[MX] ? COLUMNS - 1u - x : x;
    return COLUMNS * chip->now[Y] + column;
}

static uint8_t stored(const struct chip *chip, uint8_t byte)
{
    if (chip->now[DO])
        byte = swapped(byte);
    if (chip->now[Y] == BANKS - 1)
        byte &= 0x3F;
    return byte;
}

/* How many pixels a byte of the present bank holds: the last bank has three rows only. */
static int pixels_now(const struct chip *chip)
{
    return chip->now[Y] == BANKS - 1 ? ROWS - ROWS_OF_A_BANK * (BANKS - 1) : ROWS_OF_A_BANK;
}

/* Adds 1 to the count of a pixel's value, or takes 1 from it, for the lowest pixels of a byte. */
static void tally(int *counts, uint8_t byte, int pixels, int sign)
{
    for (int k = 0; k < pixels; k++)
        counts[byte >> 2 * k & 3] += sign;
}

bool mend_counts(struct chip *chip, uint8_t byte)
{
    int pixels = pixels_now(chip);
    int counts[VALUES];
    for (int v = 0; v < VALUES; v++)
        counts[v] = chip->now[PIXELS_0 + v];
    tally(counts, chip->memory[place_now(chip)], pixels, -1);
    tally(counts, stored(chip, byte), pixels, 1);
    for (int v = 0; v < VALUES; v++)
        if (counts[v] < 0 || counts[v] > PIXELS)
            return false;
    for (int v = 0; v < VALUES; v++)
        chip->now[PIXELS_0 + v] = (uint16_t)counts[v];
    return true;
}

/* Adds 1 to an address; past its last value it starts again at 0 and the other one moves on. */
static void advance(uint16_t *first, uint16_t first_last, uint16_t *second, uint16_t second_last)
{
    if (*first < first_last) {
        *first += 1;
        return;
    }
    *first = 0;
    *second = *second < second_last ? *second + 1 : 0;
}

uint64_t take_display_byte(struct chip *chip, uint8_t byte)
{
    uint16_t *x = &chip->now[X];
    uint16_t *y = &chip->now[Y];
    unsigned place = place_now(chip);

    chip->memory[place] = stored(chip, byte);
    chip->writers[place] = chip->count;

    if (chip->now[V])
        advance(y, BANKS - 1, x, COLUMNS - 1);
    else
        advance(x, COLUMNS - 1, y, BANKS - 1);
    return ACK;
}
