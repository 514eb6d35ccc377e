/* Sensor readings: the chip that has the pins takes them, if it measures and is not in power-down, and
 * no other chip does. What is above 3 is refused. For other events the number says nothing. */
#include "buses.h"
#include "themes.h"

/* The status bytes are apart from each other and from the reading. */
static void make_measuring(uint64_t words[CHIPS][MOST_WORDS], unsigned modes)
{
    random_records(words, (unsigned)below(STANDINGS));
    for (size_t c = 0; c < CHIPS; c++, modes /= 4) {
        words[c][W_SM] = modes & 1;
        words[c][W_PD] = modes >> 1 & 1;
        words[c][W_STATUS] = 10 * (c + 1);
    }
}

static void expect_status(const uint64_t *words, size_t chip, bool meant, uint64_t reading)
{
    bool takes = meant && words[W_SM] == 1 && words[W_PD] == 0;
    uint64_t right = takes ? reading : words[W_STATUS];
    if (bus_word(chip, W_STATUS) != right)
        fail("chip %zu has the status byte %llu, and not %llu", chip,
             (unsigned long long)bus_word(chip, W_STATUS), (unsigned long long)right);
}

static void try_reading(unsigned modes, uint64_t pins, uint64_t reading)
{
    uint64_t words[CHIPS][MOST_WORDS];
    make_measuring(words, modes);
    set_records(words);
    bus_count(random_count());
    expect_bus((uint16_t)(SENSOR + reading), pins, pins > 3 ? BAD_PINS : NOTHING);
    for (size_t c = 0; c < CHIPS; c++)
        expect_status(words[c], c, words[c][W_PINS] == pins, reading);
}

/* The same event with any number instead of the pins ends in the same bus. */
static void try_ignored(uint16_t event, uint64_t pins)
{
    static struct bus_state before, first, second;
    uint64_t words[CHIPS][MOST_WORDS];
    make_measuring(words, 0x55);
    set_records(words);
    bus_save(&before);
    uint64_t answer = compare_bus(event, below(4));
    bus_save(&first);
    bus_restore(&before);
    if (compare_bus(event, pins) != answer)
        fail("event %u: another answer where pins is %llu", event, (unsigned long long)pins);
    bus_save(&second);
    for (size_t c = 0; c < CHIPS; c++)
        if (!equal_chips(&first.chip[c], &second.chip[c]))
            fail("event %u: chip %zu is another where pins is %llu", event, c,
                 (unsigned long long)pins);
}

void test_sensors(void)
{
    theme("sensors");
    for (size_t p = 0; p < ODD_PINS; p++) {
        bus_lend_usual();
        for (unsigned modes = 0; modes < 256; modes++)
            try_reading(modes, odd_pins[p], below(256));
        for (uint64_t reading = 0; reading < 256; reading++)
            try_reading(0x55, odd_pins[p], reading);
        for (unsigned event = 0; event <= RESET_PULSE; event += quick ? 4 : 1)
            try_ignored((uint16_t)event, odd_pins[p]);
    }
}
