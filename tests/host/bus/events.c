/* Every event from every standing of the bus, and numbers that are none: what a byte, a read and the
 * rest are answered, by number and not by the model alone. And event counts where a narrower number, or
 * the last one, would show. */
#include "buses.h"
#include "themes.h"

enum { LISTED = SENSOR + 256, ALL_EVENTS = 65536, NOBODY = CHIPS };

/* ---- Answers ----------------------------------------------------------------------------- */

/* The chip that is past its address, or NOBODY. */
static size_t addressed(void)
{
    for (size_t c = 0; c < CHIPS; c++)
        if (bus_word(c, W_PHASE) > 2)
            return c;
    return NOBODY;
}

/* A chip's answer to a read: its status byte if its last RS is 0. */
static uint64_t right_read(size_t chip)
{
    bool reading = chip != NOBODY && bus_word(chip, W_PHASE) == 6;
    return reading && bus_word(chip, W_LAST_RS) == 0 ? bus_word(chip, W_STATUS) : 255;
}

/* While all await an address every chip is there, so each of the eight addresses has its chip. */
static uint64_t right_byte(size_t chip, uint16_t byte)
{
    uint64_t phase = bus_word(chip == NOBODY ? 0 : chip, W_PHASE);
    if (phase == 1)
        return byte >> 3 == 0x78 >> 3 ? ACK : NACK;
    return phase >= 3 && phase <= 5 ? ACK : NACK;
}

static bool is_command(size_t chip)
{
    uint64_t phase = chip == NOBODY ? 0 : bus_word(chip, W_PHASE);
    return (phase == 4 || phase == 5) && bus_word(chip, W_PHASE_RS) == 0;
}

static uint64_t right_answer(uint16_t event)
{
    size_t chip = addressed();
    if (event < 256)
        return right_byte(chip, event);
    if (event == READ_ACK || event == READ_NACK)
        return BYTE_READ + right_read(chip);
    return NOTHING;
}

static void try_event(unsigned standing, uint16_t event)
{
    random_bus(standing);
    uint64_t right = right_answer(event);
    bool command = event < 256 && is_command(addressed());
    uint64_t pins = event >= SENSOR ? below(4) : odd_pins[below(ODD_PINS)];
    uint64_t count = bus_count_now();
    uint64_t answer = compare_bus(event, pins);
    if (command ? answer < COMMAND_TAKEN || answer > COMMAND_TAKEN + 2 : answer != right)
        fail("event %u is answered by %llu", event, (unsigned long long)answer);
    if (bus_count_now() != count + 1)
        fail("the count does not rise by 1");
}

static void try_unlisted(unsigned standing, uint16_t event)
{
    random_bus(standing);
    expect_bus(event, odd_pins[below(ODD_PINS)], BAD_EVENT);
}

void test_events(void)
{
    theme("events");
    for (unsigned standing = 0; standing < STANDINGS; standing++) {
        bus_lend_usual();
        for (int i = 0; i < (quick ? 1 : 6); i++)
            for (unsigned event = 0; event < LISTED; event++)
                if (event <= RESET_PULSE || event >= SENSOR)
                    try_event(standing, (uint16_t)event);
        for (unsigned event = RESET_PULSE + 1; event < SENSOR; event += quick ? 10 : 1)
            try_unlisted(standing, (uint16_t)event);
        for (unsigned event = LISTED; event < ALL_EVENTS; event += quick ? 1021 : 61)
            try_unlisted(standing, (uint16_t)event);
    }
}

/* ---- Counts ------------------------------------------------------------------------------ */

static const uint64_t counts[] = {
    0, 1, 254, 255, 256, 65534, 65535, 65536, 0x7FFFFFFFu, 0xFFFFFFFEu, 0xFFFFFFFFu, 0x100000000u,
    0x7FFFFFFFFFFFFFFFu, 0x8000000000000000u, UINT64_MAX - 2, UINT64_MAX - 1, UINT64_MAX
};

/* Display bytes for the chip that is addressed until the count is used up, if it is that near. */
static void try_display(uint64_t count, size_t chip)
{
    static struct bus_state after;
    uint64_t words[CHIPS][MOST_WORDS];
    random_records(words, 2);
    set_phase(words[chip], &bus_phases[7]);
    words[chip][W_X] = 3;
    words[chip][W_Y] = 5;
    set_write_mode(words[chip], 0);
    set_records(words);
    bus_count(count);
    for (uint64_t i = 0; i < 5; i++) {
        if (count + i == UINT64_MAX) {
            expect_bus(0x5A, 0, COUNT_FULL);
            return;
        }
        expect_bus(0x5A, 0, ACK);
        bus_save(&after);
        if (after.chip[chip].writers[5 * 101 + 3 + i] != count + i + 1)
            fail("the writer is not the number of the event");
    }
}

/* Every event takes its number from the one count, whichever chip it is for. */
static void try_counts(uint64_t count)
{
    static const uint16_t events[] = { 0x78, 0x79, START, STOP, READ_ACK, READ_NACK, RESET_PULSE, SENSOR };
    for (unsigned standing = 0; standing < STANDINGS; standing++)
        for (size_t e = 0; e < sizeof events / sizeof events[0]; e++) {
            random_bus(standing);
            bus_count(count);
            uint64_t result = compare_bus(events[e], below(4));
            bool full = count == UINT64_MAX;
            if ((result == COUNT_FULL) != full || bus_count_now() != (full ? count : count + 1))
                fail("count %llu: result %llu, and then %llu", (unsigned long long)count,
                     (unsigned long long)result, (unsigned long long)bus_count_now());
        }
}

void test_counts(void)
{
    theme("counts");
    for (size_t i = 0; i < sizeof counts / sizeof counts[0]; i++) {
        bus_lend_usual();
        try_counts(counts[i]);
        for (size_t chip = 0; chip < CHIPS; chip++)
            try_display(counts[i], chip);
    }
}
