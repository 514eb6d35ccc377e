/* Counts of pixels on a bus, where they may be untrue: a display byte is refused by 16 just where the chip
 * that it is for, alone, refuses it, whatever the counts of the others are; then nothing is changed. All
 * other events pass with any counts, and leave them. */
#include "buses.h"
#include "messages.h"
#include "pcf8820.h"
#include "themes.h"

#include <string.h>

enum { DATA_PHASES = 2 };

static const struct bus_phase data_phases[DATA_PHASES] = { { 4, 1 }, { 5, 1 } };

static const uint64_t edges[] = { 0, 1, 2, 3, 4, 5, 6763, 6764, 6765, 6766, 6767 };

enum { EDGES = sizeof edges / sizeof edges[0] };

static void edge_counts(uint64_t *words)
{
    for (size_t v = 0; v < PIXEL_VALUES; v++)
        words[W_PIXELS_0 + v] = below(3) ? edges[below(EDGES)] : 100 + below(6000);
}

static bool takes_data(const uint64_t *words)
{
    return (words[W_PHASE] == 4 || words[W_PHASE] == 5) && words[W_PHASE_RS] == 1;
}

/* ---- A display byte for one of four ------------------------------------------------------ */

/* All four have counts at an edge, and one of them awaits a display byte. */
static void set_edges(size_t chip)
{
    uint64_t words[CHIPS][MOST_WORDS];
    random_records(words, 2);
    set_phase(words[chip], &data_phases[below(DATA_PHASES)]);
    for (size_t c = 0; c < CHIPS; c++)
        edge_counts(words[c]);
    set_records(words);
    bus_count(below(1000));
}

/* Gives whether the byte is refused. */
static bool try_byte(size_t chip, uint16_t byte)
{
    static struct bus_state before, after;
    set_edges(chip);
    bus_save(&before);
    struct chip_state *alone = &before.chip[chip];
    uint64_t count = before.count;
    uint64_t right = pcf8820_step(alone->record, RECORD_LEN, alone->memory, PLACES, alone->writers,
                                  PLACES, &count, byte);
    if (right != ACK && right != BAD_PIXEL_COUNT)
        fail("a chip alone gives %llu for a display byte", (unsigned long long)right);
    expect_bus(byte, odd_pins[below(ODD_PINS)], right);
    bus_save(&after);
    for (size_t c = 0; c < CHIPS; c++)
        if (!equal_chips(&before.chip[c], &after.chip[c]))
            fail("chip %zu is another than %s", c, c == chip ? "alone" : "before");
    if (after.count != count)
        fail("the count is another than that of the chip alone");
    return right == BAD_PIXEL_COUNT;
}

static void try_bytes(size_t chip)
{
    unsigned refused = 0;
    unsigned tries = quick ? 500 : 5000;
    bus_lend_usual();
    for (unsigned i = 0; i < tries; i++)
        refused += try_byte(chip, (uint16_t)below(256));
    if (refused < tries / 10 || refused > tries - tries / 10)
        fail("of %u display bytes %u are refused: too few or too many to tell", tries, refused);
}

/* ---- By number --------------------------------------------------------------------------- */

/* Chip by chip: its cell holds four pixels 0, and it is sent four pixels 3. The count of value 0 falls by
 * 4, that of value 3 rises by 4, and the three others have counts that no byte would fit. */
static void try_numbers(size_t chip, uint64_t zeros, uint64_t threes, uint64_t right)
{
    uint64_t words[CHIPS][MOST_WORDS];
    random_records(words, 2);
    for (size_t c = 0; c < CHIPS; c++)
        memset(words[c] + W_PIXELS_0, 0, PIXEL_VALUES * sizeof words[c][0]);
    set_phase(words[chip], &data_phases[below(DATA_PHASES)]);
    words[chip][W_X] = 50;
    words[chip][W_Y] = 8;
    words[chip][W_PIXELS_0] = zeros;
    words[chip][W_PIXELS_0 + 3] = threes;
    set_records(words);
    for (size_t c = 0; c < CHIPS; c++)
        bus_byte(c, 101 * 8 + 50, 0x00);
    bus_count(41);
    expect_bus(0xFF, 0, right);
    uint64_t moved = right == ACK ? 4 : 0;
    if (bus_word(chip, W_PIXELS_0) != zeros - moved || bus_word(chip, W_PIXELS_0 + 3) != threes + moved
        || bus_word(chip, W_PIXELS_0 + 1) != 0 || bus_word(chip, W_PIXELS_0 + 2) != 0)
        fail("the counts of chip %zu are others", chip);
    if (bus_count_now() != (right == ACK ? 42 : 41))
        fail("the count is %llu", (unsigned long long)bus_count_now());
}

static void try_all_numbers(size_t chip)
{
    try_numbers(chip, 6767, 0, ACK);
    try_numbers(chip, 4, 6763, ACK);
    try_numbers(chip, 3, 0, BAD_PIXEL_COUNT);
    try_numbers(chip, 0, 0, BAD_PIXEL_COUNT);
    try_numbers(chip, 4, 6764, BAD_PIXEL_COUNT);
    try_numbers(chip, 6767, 6767, BAD_PIXEL_COUNT);
}

/* ---- Other events ------------------------------------------------------------------------ */

static void try_other(unsigned standing, uint16_t event)
{
    uint64_t words[CHIPS][MOST_WORDS];
    random_records(words, standing);
    for (size_t c = 0; c < CHIPS; c++) {
        edge_counts(words[c]);
        if (event < 256 && takes_data(words[c]))
            return;
    }
    set_records(words);
    bus_count(below(1000));
    if (compare_bus(event, below(4)) < NOTHING)
        fail("event %u is refused, and is no display byte", event);
    for (size_t c = 0; c < CHIPS; c++)
        for (size_t word = W_PIXELS_0; word < RECORD_LEN; word++)
            if (bus_word(c, word) != words[c][word])
                fail("event %u changes %s of chip %zu", event, word_name(word), c);
}

static void try_others(unsigned standing)
{
    bus_lend_usual();
    for (unsigned event = 0; event < SENSOR + 256; event += quick && event < 250 ? 5 : 1)
        if (event <= RESET_PULSE || event >= SENSOR)
            try_other(standing, (uint16_t)event);
}

/* ---- Traffic ----------------------------------------------------------------------------- */

/* Gives how many events are refused by 16. */
static unsigned play_untrue(unsigned standing, size_t events)
{
    static struct messages messages;
    uint64_t words[CHIPS][MOST_WORDS];
    unsigned refused = 0;
    random_records(words, standing);
    for (size_t c = 0; c < CHIPS; c++)
        edge_counts(words[c]);
    bus_lend_usual();
    set_records(words);
    bus_count(below(1000));
    make_messages(&messages, events);
    for (size_t i = 0; i < messages.length; i++) {
        const struct sent *sent = &messages.sent[i];
        uint64_t count = bus_count_now();
        uint64_t result = compare_bus(sent->event, sent->pins);
        if (bus_count_now() != count + (result >= NOTHING))
            fail("event %u gives %llu, and the count is wrong", sent->event, (unsigned long long)result);
        refused += result == BAD_PIXEL_COUNT;
    }
    return refused;
}

void test_pixels(void)
{
    unsigned refused = 0;
    theme("pixel counts");
    for (size_t chip = 0; chip < CHIPS; chip++) {
        try_all_numbers(chip);
        try_bytes(chip);
    }
    for (unsigned standing = 0; standing < STANDINGS; standing++) {
        try_others(standing);
        refused += play_untrue(standing, quick ? 200 : 2000);
    }
    if (refused == 0)
        fail("no display byte of the traffic was refused");
}
