#include "wires.h"

#include "bus.h"

#include <stdbool.h>

enum { BYTE_BITS = 8, NO_EVENT = 0xFFFF };

enum refusal { BAD_STATE = 2, BAD_SAMPLE = 14, NO_ROOM = 15 };

/* The lines in a sample. */
enum { SDA = 1, SCL = 2, BOTH = SCL | SDA };

/* The words of a state, in their order. */
enum word { UNCLEAR, LAST, STAGE, BITS, VALUE, WORDS };

enum stage { OUTSIDE, START_AWAITED, FIRST_BYTE, WRITTEN, READ };

static const uint64_t limit[WORDS] = { UINT64_MAX, BOTH, READ, BYTE_BITS, 255 };

struct wires {
    uint64_t unclear;
    unsigned last;
    enum stage stage;
    unsigned bits, value;
};

/* ---- States in words --------------------------------------------------------------------- */

static bool allowed(const uint64_t *state, size_t state_len)
{
    if (state_len != WORDS)
        return false;
    for (int w = 0; w < WORDS; w++)
        if (state[w] > limit[w])
            return false;
    return true;
}

static struct wires load(const uint64_t *state)
{
    return (struct wires) {
        .unclear = state[UNCLEAR],
        .last = (unsigned)state[LAST],
        .stage = (enum stage)state[STAGE],
        .bits = (unsigned)state[BITS],
        .value = (unsigned)state[VALUE],
    };
}

static void store(const struct wires *wires, uint64_t *state)
{
    state[UNCLEAR] = wires->unclear;
    state[LAST] = wires->last;
    state[STAGE] = wires->stage;
    state[BITS] = wires->bits;
    state[VALUE] = wires->value;
}

/* ---- One sample -------------------------------------------------------------------------- */

/* Each gives the event, or NO_EVENT. */

static void enter(struct wires *wires, enum stage stage)
{
    wires->stage = stage;
    wires->bits = 0;
    wires->value = 0;
}

static unsigned take_unclear(struct wires *wires)
{
    if (wires->unclear < UINT64_MAX)
        wires->unclear++;
    enter(wires, START_AWAITED);
    return NO_EVENT;
}

static unsigned take_start(struct wires *wires)
{
    enter(wires, FIRST_BYTE);
    return START;
}

static unsigned take_stop(struct wires *wires)
{
    bool told = wires->stage != START_AWAITED;
    enter(wires, told ? OUTSIDE : START_AWAITED);
    return told ? STOP : NO_EVENT;
}

static unsigned take_ninth(struct wires *wires, unsigned bit)
{
    unsigned value = wires->value;
    switch (wires->stage) {
    case FIRST_BYTE:
        enter(wires, value & 1 ? READ : WRITTEN);
        return value;
    case READ:
        enter(wires, READ);
        return bit ? READ_NACK : READ_ACK;
    default:
        enter(wires, WRITTEN);
        return value;
    }
}

static unsigned take_bit(struct wires *wires, unsigned bit)
{
    if (wires->stage == OUTSIDE || wires->stage == START_AWAITED)
        return NO_EVENT;
    if (wires->bits == BYTE_BITS)
        return take_ninth(wires, bit);
    wires->value = (wires->value << 1 | bit) & 255;
    wires->bits++;
    return NO_EVENT;
}

static unsigned take_sample(struct wires *wires, unsigned sample)
{
    unsigned changed = wires->last ^ sample;
    unsigned data = sample & SDA;
    wires->last = sample;
    if (changed == BOTH)
        return take_unclear(wires);
    if (changed == SDA && sample & SCL)
        return data ? take_stop(wires) : take_start(wires);
    if (changed == SCL && sample & SCL)
        return take_bit(wires, data);
    return NO_EVENT;
}

/* ---- The calls --------------------------------------------------------------------------- */

uint64_t model_wires_start(uint64_t *state, size_t state_len)
{
    const struct wires start = { .last = BOTH };
    if (state_len != WORDS)
        return BAD_STATE;
    store(&start, state);
    return 0;
}

static bool good_samples(const uint8_t *samples, size_t samples_len)
{
    for (size_t i = 0; i < samples_len; i++)
        if (samples[i] > BOTH)
            return false;
    return true;
}

/* A sample whose event has no room is not taken. */
uint64_t model_wires(uint64_t *state, size_t state_len,
                     const uint8_t *samples, size_t samples_len,
                     uint16_t *events, size_t events_len,
                     uint64_t *consumed, uint64_t *written)
{
    size_t taken = 0;
    size_t told = 0;
    *consumed = 0;
    *written = 0;
    if (!allowed(state, state_len))
        return BAD_STATE;
    if (!good_samples(samples, samples_len))
        return BAD_SAMPLE;
    struct wires wires = load(state);
    for (; taken < samples_len; taken++) {
        struct wires next = wires;
        unsigned event = take_sample(&next, samples[taken]);
        if (event != NO_EVENT && told == events_len)
            break;
        if (event != NO_EVENT)
            events[told++] = (uint16_t)event;
        wires = next;
    }
    store(&wires, state);
    *consumed = taken;
    *written = told;
    return taken < samples_len ? NO_ROOM : 0;
}
