#include "pulses.h"

#include "glass.h"
#include "words.h"

#include <string.h>

enum { FRAMES = 4, ROW_BYTES = COLUMNS * FRAMES };

enum { BAD_ROW_BUFFER = 11, DARK = 256, UNDRIVEN = 257, LEVEL = 512 };

/* What stands in a row for a pixel that gets no pulses. */
enum { DARK_BYTE = 254, UNDRIVEN_BYTE = 255 };

/* In each frame a quarter of the level is owed. What makes no whole step is carried to the next. */
static void share_out(unsigned level, uint8_t *pulses)
{
    unsigned owed = 0;
    for (int frame = 0; frame < FRAMES; frame++) {
        owed += level;
        pulses[frame] = (uint8_t)(owed / FRAMES);
        owed %= FRAMES;
    }
}

uint64_t model_pulses(const uint64_t *record, size_t record_len,
                      const uint8_t *memory, size_t memory_len,
                      uint64_t row, uint64_t column)
{
    uint64_t pixel = model_glass(record, record_len, memory, memory_len, row, column);
    uint8_t pulses[FRAMES];
    uint64_t word = 1;
    if (pixel < LEVEL)
        return pixel;
    share_out((unsigned)(pixel - LEVEL), pulses);
    for (int frame = FRAMES - 1; frame >= 0; frame--)
        word = word << 8 | pulses[frame];
    return word;
}

static void put_pixel(uint64_t pixel, uint8_t *bytes)
{
    if (pixel == DARK)
        memset(bytes, DARK_BYTE, FRAMES);
    else if (pixel == UNDRIVEN)
        memset(bytes, UNDRIVEN_BYTE, FRAMES);
    else
        share_out((unsigned)(pixel - LEVEL), bytes);
}

uint64_t model_pulse_row(const uint64_t *record, size_t record_len,
                         const uint8_t *memory, size_t memory_len,
                         uint64_t row, uint8_t *out, size_t out_len)
{
    uint64_t first = model_glass(record, record_len, memory, memory_len, row, 0);
    if (first < DARK)
        return first;
    if (out_len != ROW_BYTES)
        return BAD_ROW_BUFFER;
    for (uint64_t column = 0; column < COLUMNS; column++) {
        uint64_t pixel = model_glass(record, record_len, memory, memory_len, row, column);
        put_pixel(pixel, out + FRAMES * column);
    }
    return 0;
}
