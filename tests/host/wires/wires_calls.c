#include "wires_calls.h"

#include "pcf8820.h"
#include "records.h"
#include "wires.h"

#include <stdio.h>
#include <string.h>

/* No event: it fills the event buffer before the call. */
enum { UNWRITTEN = 0xC3C3, LAST_EVENT = READ_NACK };

static const uint64_t limits[STATE_LEN] = { UINT64_MAX, 3, 4, 8, 255 };

struct side {
    struct lent state, samples, events, consumed, written;
};

static struct side model, library;

/* The present call, for the message at a difference. */
static struct {
    uint64_t state[MOST_WORDS];
    size_t state_len;
    const uint8_t *samples;
    size_t samples_len, room;
} call;

static void print_state(void)
{
    fprintf(stderr, "  state before:");
    for (size_t w = 0; w < call.state_len; w++)
        fprintf(stderr, " %llu", (unsigned long long)call.state[w]);
    fprintf(stderr, "\n");
}

static void print_samples(void)
{
    enum { MOST = 500 };
    print_state();
    fprintf(stderr, "  room for %zu events, %zu samples:", call.room, call.samples_len);
    for (size_t i = 0; i < call.samples_len && i < MOST; i++)
        fprintf(stderr, " %u", call.samples[i]);
    fprintf(stderr, call.samples_len > MOST ? " ...\n" : "\n");
}

/* ---- Buffers ----------------------------------------------------------------------------- */

static void map_side(struct side *side)
{
    map_lent(&side->state, MOST_WORDS * sizeof(uint64_t));
    map_lent(&side->samples, MOST_SAMPLES);
    map_lent(&side->events, MOST_ROOM * sizeof(uint16_t));
    map_lent(&side->consumed, sizeof(uint64_t));
    map_lent(&side->written, sizeof(uint64_t));
}

void wires_calls_start(void)
{
    catch_signals();
    map_side(&model);
    map_side(&library);
}

/* Some calls at the start of the pages, then some at their end. */
static enum where next_where(void)
{
    static unsigned calls;
    return calls++ / 16 % 2 ? AT_START : AT_END;
}

/* Noise of its own on each side, so that a number that a side does not set is found to differ. */
static void put_number(struct lent *lent, enum where where)
{
    uint64_t noise = random64();
    put_lent(lent, sizeof noise, where);
    fill_lent(lent, &noise, sizeof noise);
}

static void lend_call(struct side *side, enum where where)
{
    put_lent(&side->samples, call.samples_len, where);
    fill_lent(&side->samples, call.samples, call.samples_len);
    put_lent(&side->events, call.room * sizeof(uint16_t), where);
    memset(side->events.at, UNWRITTEN & 255, side->events.bytes);
    put_number(&side->consumed, where);
    put_number(&side->written, where);
}

/* ---- States ------------------------------------------------------------------------------ */

uint64_t state_limit(size_t word)
{
    return limits[word];
}

static void put_state(struct side *side, const uint64_t *words, size_t state_len, enum where where)
{
    put_lent(&side->state, state_len * sizeof(uint64_t), where);
    fill_lent(&side->state, words, state_len * sizeof(uint64_t));
}

void lend_state(const uint64_t *words, size_t state_len)
{
    enum where where = next_where();
    put_state(&model, words, state_len, where);
    put_state(&library, words, state_len, where);
}

void state_now(uint64_t *words)
{
    memcpy(words, library.state.at, library.state.bytes);
}

void expect_state(const uint64_t *words)
{
    const uint64_t *now = words_of(&library.state);
    for (size_t w = 0; w < STATE_LEN; w++)
        if (now[w] != words[w])
            fail("word %zu of the state is %llu, and not %llu", w, (unsigned long long)now[w],
                 (unsigned long long)words[w]);
}

static void note_call(const char *name, void (*describe)(void))
{
    next_call(name, describe);
    call.state_len = library.state.bytes / sizeof(uint64_t);
    state_now(call.state);
}

/* ---- The calls --------------------------------------------------------------------------- */

uint64_t compare_start(size_t state_len)
{
    uint64_t noise[MOST_WORDS];
    for (size_t w = 0; w < MOST_WORDS; w++)
        noise[w] = random64();
    lend_state(noise, state_len);
    note_call("wires_start", print_state);
    uint64_t theirs = pcf8820_wires_start(words_of(&library.state), state_len);
    uint64_t ours = model_wires_start(words_of(&model.state), state_len);
    equal_results(ours, theirs);
    compare_lent("state", sizeof(uint64_t), &model.state, &library.state);
    count_call();
    return theirs;
}

void start_again(void)
{
    if (compare_start(STATE_LEN) != 0)
        fail("the start of the wires is refused");
}

static void compare_sides(void)
{
    compare_lent("consumed", sizeof(uint64_t), &model.consumed, &library.consumed);
    compare_lent("written", sizeof(uint64_t), &model.written, &library.written);
    compare_lent("events", sizeof(uint16_t), &model.events, &library.events);
    compare_lent("state", sizeof(uint64_t), &model.state, &library.state);
    compare_lent("samples", sizeof(uint8_t), &model.samples, &library.samples);
}

/* What holds of every call, whatever the model says. */
static void look_at(const struct fed *fed)
{
    if (fed->consumed > call.samples_len || fed->written > fed->consumed || fed->written > call.room)
        fail("more is consumed or written than there is");
    for (size_t i = 0; i < fed->written; i++)
        if (fed->events[i] > LAST_EVENT)
            fail("event %zu is %u, which is none", i, fed->events[i]);
    for (size_t i = fed->written; i < call.room; i++)
        if (fed->events[i] != UNWRITTEN)
            fail("place %zu of the events is changed, and %llu are written", i,
                 (unsigned long long)fed->written);
    if (memcmp(call.samples, library.samples.at, call.samples_len) != 0)
        fail("the samples were changed");
    for (size_t w = 0; w < STATE_LEN && fed->result != BAD_STATE; w++)
        if (words_of(&library.state)[w] > limits[w])
            fail("word %zu of the state that is handed back is not allowed", w);
}

struct fed compare_wires(const uint8_t *samples, size_t samples_len, size_t room)
{
    enum where where = next_where();
    note_call("wires", print_samples);
    call.samples = samples;
    call.samples_len = samples_len;
    call.room = room;
    lend_call(&model, where);
    lend_call(&library, where);
    uint64_t theirs = pcf8820_wires(words_of(&library.state), call.state_len,
                                    library.samples.at, samples_len, events_of(&library.events), room,
                                    words_of(&library.consumed), words_of(&library.written));
    uint64_t ours = model_wires(words_of(&model.state), call.state_len,
                                model.samples.at, samples_len, events_of(&model.events), room,
                                words_of(&model.consumed), words_of(&model.written));
    struct fed fed = { theirs, *words_of(&library.consumed), *words_of(&library.written),
                       events_of(&library.events) };
    equal_results(ours, theirs);
    compare_sides();
    look_at(&fed);
    count_call();
    return fed;
}

struct fed expect_wires(const uint8_t *samples, size_t samples_len, size_t room, uint64_t result,
                        uint64_t consumed, uint64_t written)
{
    struct fed fed = compare_wires(samples, samples_len, room);
    if (fed.result != result || fed.consumed != consumed || fed.written != written)
        fail("result, consumed and written are %llu, %llu and %llu, and not %llu, %llu and %llu",
             (unsigned long long)fed.result, (unsigned long long)fed.consumed,
             (unsigned long long)fed.written, (unsigned long long)result,
             (unsigned long long)consumed, (unsigned long long)written);
    return fed;
}

void expect_refused(const uint8_t *samples, size_t samples_len, size_t room, uint64_t result)
{
    expect_wires(samples, samples_len, room, result, 0, 0);
    if (memcmp(call.state, library.state.at, library.state.bytes) != 0)
        fail("a refused call changed the state");
}
