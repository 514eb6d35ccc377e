/* Long random traffic of four chips, compared after every event; that each chip does what it does
 * alone; and that what one chip is sent is nothing to the other three. The counts of pixels are true at
 * the start, and so at the end; with others a byte for one chip may be refused for all. */
#include "buses.h"
#include "messages.h"
#include "pcf8820.h"
#include "themes.h"

static struct messages messages;

/* ---- Traffic ----------------------------------------------------------------------------- */

static void play(void)
{
    for (size_t i = 0; i < messages.length; i++) {
        const struct sent *sent = &messages.sent[i];
        if (sent->refusal != 0)
            expect_bus(sent->event, sent->pins, sent->refusal);
        else if (compare_bus(sent->event, sent->pins) < NOTHING)
            fail("event %zu of the traffic is refused", i);
    }
}

static void try_traffic(unsigned standing, size_t events)
{
    bus_lend_usual();
    random_true_bus(standing);
    make_messages(&messages, events);
    play();
    expect_true_pixels();
}

void test_traffic(void)
{
    theme("traffic");
    for (int i = 0; i < (quick ? 1 : 20); i++)
        for (unsigned standing = 0; standing < STANDINGS; standing++)
            try_traffic(standing, (size_t)below(quick ? 600 : MOST_SENT));
}

/* ---- Alone ------------------------------------------------------------------------------- */

/* An event that is none is refused by the chip alone, too. */
static void give_alone(struct chip_state *chip, uint64_t *count, const struct sent *sent)
{
    uint64_t result = pcf8820_step(chip->record, RECORD_LEN, chip->memory, PLACES, chip->writers,
                                   PLACES, count, sent->event);
    if (sent->refusal != 0 ? result != sent->refusal : result < NOTHING)
        fail("a chip alone gives %llu for event %u", (unsigned long long)result, sent->event);
}

/* The chip by itself, event by event. A reading for another chip does not come to it, but is counted;
 * one for no chip is not. Gives the count at the end. */
static uint64_t play_alone(struct chip_state *chip, uint64_t count)
{
    for (size_t i = 0; i < messages.length; i++) {
        const struct sent *sent = &messages.sent[i];
        if (sent->refusal == BAD_PINS)
            continue;
        if (sent->refusal == 0 && sent->event >= SENSOR && sent->pins != chip->record[W_PINS])
            count++;
        else
            give_alone(chip, &count, sent);
    }
    return count;
}

static void try_alone(unsigned standing, size_t events)
{
    static struct bus_state alone, together;
    bus_lend_usual();
    random_true_bus(standing);
    bus_save(&alone);
    make_messages(&messages, events);
    play();
    bus_save(&together);
    for (size_t c = 0; c < CHIPS; c++) {
        if (play_alone(&alone.chip[c], alone.count) != together.count)
            fail("the bus counts other than chip %zu alone", c);
        if (!equal_chips(&alone.chip[c], &together.chip[c]))
            fail("chip %zu is another on the bus than alone", c);
    }
}

void test_alone(void)
{
    theme("alone");
    for (int i = 0; i < (quick ? 1 : 10); i++)
        for (unsigned standing = 0; standing < STANDINGS; standing++)
            try_alone(standing, (size_t)below(quick ? 100 : 600));
}

/* ---- Apart ------------------------------------------------------------------------------- */

/* What the next byte is, for the chip with some pins: read off the events alone. */
enum turn { ADDRESS, DATA, OTHER };

static enum turn turn_at_start(uint64_t phase)
{
    if (phase == 1)
        return ADDRESS;
    return phase >= 3 && phase <= 5 ? DATA : OTHER;
}

static enum turn turn_after(enum turn turn, uint16_t event, uint64_t pins)
{
    if (event == START)
        return ADDRESS;
    if (event == STOP || event == RESET_PULSE)
        return OTHER;
    if (turn == ADDRESS && event < 256)
        return event == (0x78 | pins << 1) ? DATA : OTHER;
    return turn;
}

/* Every byte behind the chip's write address, control bytes among them, becomes another. */
static void change_data(uint64_t pins)
{
    enum turn turn = turn_at_start(bus_word(chip_of(pins), W_PHASE));
    for (size_t i = 0; i < messages.length; i++) {
        uint16_t event = messages.sent[i].event;
        if (turn == DATA && event < 256)
            messages.sent[i].event = (uint16_t)below(256);
        turn = turn_after(turn, event, pins);
    }
}

/* Gives whether the chip itself came out another. */
static bool try_apart(unsigned standing, uint64_t pins, size_t events)
{
    static struct bus_state before, first, second;
    bus_lend_usual();
    random_true_bus(standing);
    size_t chip = chip_of(pins);
    bus_save(&before);
    make_messages(&messages, events);
    play();
    bus_save(&first);
    bus_restore(&before);
    change_data(pins);
    play();
    bus_save(&second);
    for (size_t c = 0; c < CHIPS; c++)
        if (c != chip && !equal_chips(&first.chip[c], &second.chip[c]))
            fail("other data for chip %zu changed chip %zu", chip, c);
    if (first.count != second.count)
        fail("other data for chip %zu changed the count", chip);
    return !equal_chips(&first.chip[chip], &second.chip[chip]);
}

void test_apart(void)
{
    unsigned changed = 0;
    theme("apart");
    for (int i = 0; i < (quick ? 1 : 10); i++)
        for (unsigned standing = 0; standing < STANDINGS; standing++)
            for (uint64_t pins = 0; pins < 4; pins++)
                changed += try_apart(standing, pins, 20 + (size_t)below(quick ? 100 : 600));
    if (changed < STANDINGS)
        fail("other data hardly ever changed the chip that got it");
}
