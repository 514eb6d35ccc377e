/* The pulses of every level, by what is known of them beforehand: those that the paper gives, and
 * that whole rounds add up to the level. And the row buffer against the row's pixels, one by one. */
#include "glass_calls.h"
#include "records.h"
#include "themes.h"

enum { HELD = 64, MOST_PULSE = 16, DARK_BYTE = 254, UNDRIVEN_BYTE = 255 };

static const uint64_t LIT = (uint64_t)1 << 32;

/* What a register holds, and what its pixels get, from the paper. */
static const struct {
    uint64_t held;
    uint8_t pulses[FRAMES];
} known[] = {
    { 17, { 4, 4, 4, 5 } }, { 30, { 7, 8, 7, 8 } }, { 63, { 16, 16, 16, 16 } }
};

static uint8_t pulse_of(uint64_t number, unsigned frame)
{
    return (uint8_t)(number >> 8 * frame);
}

/* Mode 00: every pixel is lit by grey register 0. */
static void light_all(uint64_t held)
{
    uint64_t words[MOST_WORDS];
    random_record(words);
    words[W_PD] = 0;
    words[W_DOF] = 0;
    words[W_PS] = 0;
    words[W_D] = 0;
    words[W_E] = 0;
    words[W_GS0] = held;
    glass_lend_usual();
    glass_record(words);
}

static void try_known(void)
{
    for (size_t i = 0; i < sizeof known / sizeof known[0]; i++) {
        light_all(known[i].held);
        uint64_t number = compare_pulses(below(ROWS), below(COLUMNS));
        for (unsigned frame = 0; frame < FRAMES; frame++)
            if (pulse_of(number, frame) != known[i].pulses[frame])
                fail("a register of %llu has another pulse in frame %u",
                     (unsigned long long)known[i].held, frame);
    }
}

/* Two rounds, from each of the frames on. */
static void try_sum(uint64_t held)
{
    light_all(held);
    uint64_t row = below(ROWS), column = below(COLUMNS);
    uint64_t level = compare_glass(row, column) - LEVEL;
    uint64_t number = compare_pulses(row, column);
    if (number >> 32 != 1)
        fail("a lit pixel has no pulses");
    for (unsigned first = 0; first < FRAMES; first++) {
        uint64_t sum = 0;
        for (unsigned frame = first; frame < first + 2 * FRAMES; frame++) {
            uint8_t pulse = pulse_of(number, frame % FRAMES);
            if (pulse > MOST_PULSE)
                fail("a pulse is above %d", MOST_PULSE);
            sum += pulse;
        }
        if (sum != 2 * level)
            fail("two rounds do not add up to twice the level %llu", (unsigned long long)level);
    }
}

/* Four bytes of a row say what the pixel's own call says. */
static void equal_pixel(uint64_t row, uint64_t column)
{
    const uint8_t *bytes = row_buffer() + FRAMES * column;
    uint64_t number = compare_pulses(row, column);
    for (unsigned frame = 0; frame < FRAMES; frame++) {
        uint8_t right = number == DARK       ? DARK_BYTE
                        : number == UNDRIVEN ? UNDRIVEN_BYTE
                                             : pulse_of(number, frame);
        if (bytes[frame] != right)
            fail("column %llu of the row has another byte for frame %u", (unsigned long long)column,
                 frame);
        if ((number >= LIT) != (bytes[frame] <= MOST_PULSE))
            fail("a pixel that is not lit can be taken for one that is");
    }
}

static void try_rows(void)
{
    for (uint64_t row = 0; row < ROWS; row++) {
        if (compare_pulse_row(row, ROW_BYTES) != 0)
            fail("a row of the glass is refused");
        for (uint64_t column = 0; column < COLUMNS; column++)
            equal_pixel(row, column);
    }
}

/* Most are lit with each value in a register of its own; some are dark, partial, or of one grey. */
static void try_glasses(void)
{
    uint64_t words[MOST_WORDS];
    for (unsigned i = 0; i < (quick ? 6 : 60); i++) {
        random_record(words);
        words[W_PD] = i % 5 == 4;
        words[W_DOF] = i % 7 == 6;
        words[W_PS] = i % 3 == 2;
        words[W_DP] = i % 2 ? 0 : 7;
        words[W_D] = i % 4 != 3;
        for (unsigned grey = 0; grey < 4; grey++)
            words[W_GS0 + grey] = 16 * grey + (i + 5 * grey) % 16;
        glass_lend_usual();
        glass_record(words);
        try_rows();
    }
}

void test_pulses(void)
{
    theme("pulses");
    try_known();
    for (uint64_t held = 0; held < HELD; held++)
        try_sum(held);
    try_glasses();
}
