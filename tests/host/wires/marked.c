/* Short courses of the two lines, written by hand, with the events and the unclear samples in them. */
#include "themes.h"
#include "wires_calls.h"

#include <stdlib.h>
#include <string.h>

enum { LONGEST = 300, MOST_MARKED = 16 };

/* A letter a sample: c and C are the clock's fall and rise, d and D the data line's, x is a change of
 * both, and a point is no change. Blanks stand for nothing. */
struct marked {
    const char *what, *moves, *events;
    uint64_t unclear;
};

/* Bytes with their ninth bits, 0 and in the last one 1. Both lines are low before them and after. */
#define H78 "Cc DCcCcCcCc dCcCcCc Cc "
#define H79 "Cc DCcCcCcCc dCcCc DCc dCc "
#define HA7 "DCc dCc DCc dCcCc DCcCcCc dCc "
#define HA7_1 "DCc dCc DCc dCcCc DCcCcCc Ccd "

static const struct marked marked[] = {
    { "nothing", "", "", 0 },
    { "no change", "....", "", 0 },
    { "clock alone", "cCcCcCcCcC cCcCcCcCcC", "", 0 },
    { "data while the clock is low", "cdDdDdD", "", 0 },

    /* START and STOP. */
    { "START", "d", "256", 0 },
    { "START later", "...d", "256", 0 },
    { "START and STOP", "dD", "256 257", 0 },
    { "START and STOP twice", "dDdD", "256 257 256 257", 0 },
    { "START and STOP with clocks", "dcCcC D", "256 257", 0 },
    { "START in a message", "dc DCd", "256 256", 0 },
    { "STOP with no START before it", "cdCD", "257", 0 },
    { "STOP after STOP", "dD cdCD", "256 257 257", 0 },

    /* Bytes. */
    { "byte", "dc" H78, "256 120", 0 },
    { "byte sampled often", "....d..c." "..C..c. .D.C..c..C.c.C.c..C.c. .d..C.c.C..c.C.c. ..C.c", "256 120", 0 },
    { "byte not acknowledged", "dc Cc DCcCcCcCc dCcCcCc DCc", "256 120", 0 },
    { "event at the ninth rise", "dc Cc DCcCcCcCc dCcCcCc C", "256 120", 0 },
    { "eight bits", "dc Cc DCcCcCcCc dCcCcCc", "256", 0 },
    { "eight bits, and data moves", "dc Cc DCcCcCcCc dCcCcCc D", "256", 0 },
    { "high bit first", "dc DCc dCcCcCcCcCcCcCc Cc", "256 128", 0 },
    { "bit of the rise, not of the fall", "dc DCc dCc DCc dCc DCc dCc DCc dCc DCc", "256 170", 0 },
    { "data moves before the rise", "dc DdDCc dDdCc DdDCc dDdCc DCc dCc DCc dCc DCc", "256 170", 0 },
    { "bytes written", "dc" H78 HA7 HA7_1 HA7, "256 120 167 167 167", 0 },
    { "odd bytes written do not turn the direction", "dc" H78 HA7 H79 HA7, "256 120 167 121 167", 0 },
    { "bytes read", "dc" H79 HA7 HA7_1, "256 121 258 259", 0 },
    { "bytes behind the last one read", "dc" H79 HA7_1 HA7 H78, "256 121 259 258 258", 0 },
    { "even bytes read do not turn the direction", "dc" H79 H78 HA7_1 H78, "256 121 258 259 258", 0 },
    { "read, the first byte not acknowledged", "dc Cc DCcCcCcCc dCcCc DCc Ccd" HA7, "256 121 258", 0 },
    { "written, the first byte not acknowledged", "dc Cc DCcCcCcCc dCcCcCc DCcd" HA7_1, "256 120 167", 0 },

    /* Clocks outside START to STOP. */
    { "clocks, then a message", "cCcCcC dc" H78, "256 120", 0 },
    { "clocks after a STOP", "dc" H78 "CD cCcCcCcCcC cCcCcCcCcC", "256 120 257", 0 },
    { "clocks between messages", "dc" H78 "CD cdCcCcDCcCcC dc" HA7, "256 120 257 256 167", 0 },

    /* START and STOP within a byte. */
    { "START within the first byte", "dc CcCcDC dc" HA7, "256 256 167", 0 },
    { "START within a byte, then a byte read", "dc" H78 "CcDC dc" H79 HA7, "256 120 256 121 258", 0 },
    { "START within a byte read, then a byte written", "dc" H79 "CcDC dc" H78 HA7, "256 121 256 120 167", 0 },
    { "START after eight bits", "dc Cc DCcCcCcCc dCcCc DC dc" H78, "256 256 120", 0 },
    { "START in the ninth high", "dc Cc DCcCcCcCc dCcCcCc DC dc" HA7, "256 120 256 167", 0 },
    { "STOP within the first byte", "dc CcCcC D", "256 257", 0 },
    { "STOP within a byte, then a message", "dc" H78 "CcCcC D dc" H79 HA7, "256 120 257 256 121 258", 0 },
    { "STOP after eight bits", "dc Cc DCcCcCcCc dCcCcC D dc" HA7, "256 257 256 167", 0 },
    { "STOP in the ninth high", "dc Cc DCcCcCcCc dCcCcCc C D", "256 120 257", 0 },

    /* Unclear samples. */
    { "first sample unclear", "x", "", 1 },
    { "every sample unclear", "xxxxx", "", 5 },
    { "STOP after an unclear sample", "x CD", "", 1 },
    { "STOPs after an unclear sample", "x CD cdCD cdCD", "", 1 },
    { "clocks after an unclear sample", "x CcCcCcCcCcCcCcCcCcCc", "", 1 },
    { "START after an unclear sample", "x DCdc" H78 "CD", "256 120 257", 1 },
    { "START after STOP after an unclear sample", "x CD dD", "256 257", 1 },
    { "unclear before a byte", "dc x c" "CcCcCcCcCcCcCcCcCc", "256", 1 },
    { "unclear within a byte", "dc CcDCcx D c" "CcCcCcCcCcCcCcCcCc", "256", 1 },
    { "unclear between bytes, then STOP", "dc" H78 "x cdCD", "256 120", 1 },
    { "unclear while reading, then a message", "dc" H79 "x dc" H78 HA7, "256 121 256 120 167", 1 },
    { "unclear samples far apart", "x CD dD x CD dc" H79 "x dc" HA7, "256 257 256 121 256 167", 3 },
};

static unsigned moved(unsigned level, char move)
{
    switch (move) {
    case 'c': return level & ~(unsigned)SCL;
    case 'C': return level | SCL;
    case 'd': return level & ~(unsigned)SDA;
    case 'D': return level | SDA;
    case 'x': return level ^ BOTH;
    default: return level;
    }
}

static size_t samples_of(const struct marked *this, uint8_t *samples)
{
    size_t length = 0;
    unsigned level = BOTH;
    for (const char *move = this->moves; *move != '\0'; move++) {
        unsigned next = moved(level, *move);
        if (*move == ' ')
            continue;
        if ((next == level) != (*move == '.') || length == LONGEST)
            fail("%s: sample %zu can't be %c", this->what, length, *move);
        samples[length++] = (uint8_t)next;
        level = next;
    }
    return length;
}

static size_t events_in(const char *text, uint16_t *events)
{
    size_t count = 0;
    char *end;
    for (unsigned long event = strtoul(text, &end, 10); end != text; event = strtoul(text, &end, 10)) {
        events[count++] = (uint16_t)event;
        text = end;
    }
    return count;
}

static void try_marked(const struct marked *this)
{
    uint8_t samples[LONGEST];
    uint16_t events[MOST_MARKED];
    uint64_t state[MOST_WORDS];
    size_t length = samples_of(this, samples);
    size_t count = events_in(this->events, events);

    start_again();
    struct fed fed = compare_wires(samples, length, MOST_MARKED);
    state_now(state);
    if (fed.result != 0 || fed.consumed != length)
        fail("%s: not all consumed", this->what);
    if (fed.written != count || memcmp(fed.events, events, count * sizeof events[0]) != 0)
        fail("%s: other events than %s", this->what, this->events);
    if (state[W_UNCLEAR] != this->unclear)
        fail("%s: %llu unclear samples", this->what, (unsigned long long)state[W_UNCLEAR]);
}

void test_marked(void)
{
    theme("marked");
    for (size_t i = 0; i < sizeof marked / sizeof marked[0]; i++)
        try_marked(&marked[i]);
}
