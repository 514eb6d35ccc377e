/* Which four chips may stand on one bus: all mixtures of phases and all mixtures of pins. How many are
 * not refused by 12 is known beforehand. */
#include "buses.h"
#include "themes.h"

enum { PHASE_MIXTURES = PHASES * PHASES * PHASES * PHASES, PIN_MIXTURES = 4 * 4 * 4 * 4, ORDERS = 24 };

static void expect_number(const char *what, unsigned number, unsigned right)
{
    if (number != right)
        fail("%u %s were not refused, and not %u", number, what, right);
}

/* ---- Phases ------------------------------------------------------------------------------ */

/* Events of each kind. A byte is sometimes an address. */
static uint16_t event_of(unsigned kind)
{
    switch (kind) {
    case 0: return (uint16_t)below(256);
    case 1: return (uint16_t)(0x78 + below(8));
    case 2: return START;
    case 3: return STOP;
    case 4: return (uint16_t)(READ_ACK + below(2));
    case 5: return RESET_PULSE;
    case 6: return (uint16_t)(SENSOR + below(256));
    default: return unlisted_event();
    }
}

enum { KINDS = 8, UNLISTED = KINDS - 1 };

static void make_mixture(uint64_t words[CHIPS][MOST_WORDS], unsigned mixture)
{
    random_records(words, 0);
    for (size_t c = 0; c < CHIPS; c++, mixture /= PHASES)
        set_phase(words[c], &bus_phases[mixture % PHASES]);
}

/* Gives whether these phases are not refused, which is so for every event or for none. */
static bool try_mixture(unsigned mixture)
{
    uint64_t words[CHIPS][MOST_WORDS];
    unsigned passed = 0;
    for (unsigned kind = 0; kind < KINDS; kind++) {
        make_mixture(words, mixture);
        set_records(words);
        bus_count(random_count());
        uint64_t result = compare_bus(event_of(kind), below(4));
        passed += result != BAD_BUS;
        if (result != BAD_BUS && (result >= NOTHING) != (kind != UNLISTED))
            fail("phases that may stand together, and the result is %llu", (unsigned long long)result);
    }
    if (passed != 0 && passed != KINDS)
        fail("12 is given for some events and not for others");
    return passed != 0;
}

static void try_phases(void)
{
    unsigned passed = 0;
    for (unsigned mixture = 0; mixture < PHASE_MIXTURES; mixture++) {
        if (mixture % 1000 == 0)
            bus_lend_usual();
        passed += try_mixture(mixture);
    }
    expect_number("mixtures of phases", passed, STANDINGS);
}

/* ---- Pins -------------------------------------------------------------------------------- */

static bool try_pins(unsigned standing, unsigned mixture)
{
    uint64_t words[CHIPS][MOST_WORDS];
    random_records(words, standing);
    for (size_t c = 0; c < CHIPS; c++, mixture /= 4)
        words[c][W_PINS] = mixture % 4;
    set_records(words);
    bus_count(random_count());
    return compare_bus(event_of((unsigned)below(UNLISTED)), below(4)) != BAD_BUS;
}

static void try_all_pins(unsigned standing)
{
    unsigned passed = 0;
    bus_lend_usual();
    for (unsigned mixture = 0; mixture < PIN_MIXTURES; mixture++)
        passed += try_pins(standing, mixture);
    expect_number("mixtures of pins", passed, ORDERS);
}

/* ---- After an event ---------------------------------------------------------------------- */

/* Four chips that may stand together do so after every event, too. */
static void try_on(unsigned standing, uint16_t event)
{
    random_bus(standing);
    bus_count(below(1000));
    compare_bus(event, below(4));
    if (compare_bus(STOP, 0) != NOTHING)
        fail("event %u leaves chips that are refused", event);
}

void test_standings(void)
{
    theme("standings");
    try_phases();
    for (unsigned standing = 0; standing < STANDINGS; standing++)
        try_all_pins(standing);
    for (unsigned standing = 0; standing < STANDINGS; standing++)
        for (unsigned event = 0; event <= RESET_PULSE; event++)
            try_on(standing, (uint16_t)event);
}
