#include "bus_calls.h"

#include "four_chips.h"
#include "pcf8820.h"
#include "records.h"

#include <stdio.h>
#include <string.h>

enum { CALLS_BETWEEN_CANARIES = 16 };

const struct lengths good_lengths = { RECORD_LEN, PLACES, PLACES };

struct buffers {
    struct lent record, memory, writers;
};

struct side {
    struct buffers chip[CHIPS];
    struct lent count;
};

static struct side model, library;

/* The present call, for the message at a difference. */
static struct {
    struct lengths lengths[CHIPS];
    uint64_t record[CHIPS][MOST_WORDS];
    uint64_t count, pins;
    unsigned event;
} call;

static void print_bus(void)
{
    for (size_t c = 0; c < CHIPS; c++) {
        fprintf(stderr, "  chip %zu: record length %zu, memory length %zu, writers length %zu\n", c,
                call.lengths[c].record, call.lengths[c].memory, call.lengths[c].writers);
        print_record(call.record[c], call.lengths[c].record);
    }
    fprintf(stderr, "  count before: %llu\n  event: %u, pins: %llu\n",
            (unsigned long long)call.count, call.event, (unsigned long long)call.pins);
}

/* ---- Buffers ----------------------------------------------------------------------------- */

static void map_side(struct side *side)
{
    for (size_t c = 0; c < CHIPS; c++) {
        map_lent(&side->chip[c].record, MOST_WORDS * sizeof(uint64_t));
        map_lent(&side->chip[c].memory, MOST_PLACES);
        map_lent(&side->chip[c].writers, MOST_PLACES * sizeof(uint64_t));
    }
    map_lent(&side->count, sizeof(uint64_t));
}

void bus_start(void)
{
    catch_signals();
    map_side(&model);
    map_side(&library);
    bus_lend_usual();
}

static void lend_side(struct side *side, enum where where)
{
    for (size_t c = 0; c < CHIPS; c++) {
        put_lent(&side->chip[c].record, call.lengths[c].record * sizeof(uint64_t), where);
        put_lent(&side->chip[c].memory, call.lengths[c].memory, where);
        put_lent(&side->chip[c].writers, call.lengths[c].writers * sizeof(uint64_t), where);
    }
    put_lent(&side->count, sizeof(uint64_t), where);
}

void bus_lend(const struct lengths lengths[CHIPS], enum where where)
{
    static struct bus_state state;
    bus_canaries();
    memcpy(call.lengths, lengths, sizeof call.lengths);
    lend_side(&model, where);
    lend_side(&library, where);
    for (size_t c = 0; c < CHIPS; c++) {
        struct chip_state *chip = &state.chip[c];
        reset_record(chip->record, c);
        for (size_t i = 0; i < MOST_PLACES; i++) {
            chip->memory[i] = (uint8_t)random64();
            chip->writers[i] = random64();
        }
    }
    state.count = random_count();
    bus_restore(&state);
}

void bus_lend_usual(void)
{
    static enum where where = AT_END;
    bus_lend((const struct lengths[]) { good_lengths, good_lengths, good_lengths, good_lengths },
             where);
    where = where == AT_END ? AT_START : AT_END;
}

void bus_record(size_t chip, const uint64_t *words)
{
    memcpy(model.chip[chip].record.at, words, model.chip[chip].record.bytes);
    memcpy(library.chip[chip].record.at, words, library.chip[chip].record.bytes);
}

void bus_count(uint64_t count)
{
    *words_of(&model.count) = count;
    *words_of(&library.count) = count;
}

void bus_byte(size_t chip, size_t place, uint8_t byte)
{
    model.chip[chip].memory.at[place] = byte;
    library.chip[chip].memory.at[place] = byte;
}

void bus_true_pixels(void)
{
    for (size_t c = 0; c < CHIPS; c++) {
        set_pixels(words_of(&model.chip[c].record), library.chip[c].memory.at);
        set_pixels(words_of(&library.chip[c].record), library.chip[c].memory.at);
    }
}

void expect_true_pixels(void)
{
    uint64_t words[MOST_WORDS];
    for (size_t c = 0; c < CHIPS; c++) {
        set_pixels(words, library.chip[c].memory.at);
        for (size_t word = W_PIXELS_0; word < RECORD_LEN; word++)
            if (bus_word(c, word) != words[word])
                fail("chip %zu: %s is %llu, counted afresh %llu", c, word_name(word),
                     (unsigned long long)bus_word(c, word), (unsigned long long)words[word]);
    }
}

uint64_t bus_word(size_t chip, size_t word)
{
    return words_of(&library.chip[chip].record)[word];
}

uint64_t bus_count_now(void)
{
    return *words_of(&library.count);
}

/* ---- States ------------------------------------------------------------------------------ */

void bus_save(struct bus_state *state)
{
    for (size_t c = 0; c < CHIPS; c++) {
        const struct buffers *from = &library.chip[c];
        memcpy(state->chip[c].record, from->record.at, from->record.bytes);
        memcpy(state->chip[c].memory, from->memory.at, from->memory.bytes);
        memcpy(state->chip[c].writers, from->writers.at, from->writers.bytes);
    }
    state->count = bus_count_now();
}

static void restore_side(struct side *side, const struct bus_state *state)
{
    for (size_t c = 0; c < CHIPS; c++) {
        struct buffers *to = &side->chip[c];
        memcpy(to->record.at, state->chip[c].record, to->record.bytes);
        memcpy(to->memory.at, state->chip[c].memory, to->memory.bytes);
        memcpy(to->writers.at, state->chip[c].writers, to->writers.bytes);
    }
    *words_of(&side->count) = state->count;
}

void bus_restore(const struct bus_state *state)
{
    restore_side(&model, state);
    restore_side(&library, state);
}

bool equal_chips(const struct chip_state *one, const struct chip_state *other)
{
    return memcmp(one->record, other->record, RECORD_LEN * sizeof(uint64_t)) == 0
        && memcmp(one->memory, other->memory, PLACES) == 0
        && memcmp(one->writers, other->writers, PLACES * sizeof(uint64_t)) == 0;
}

/* The library's buffers are as they were kept. */
static bool unchanged(const struct bus_state *state)
{
    for (size_t c = 0; c < CHIPS; c++) {
        const struct buffers *now = &library.chip[c];
        if (memcmp(state->chip[c].record, now->record.at, now->record.bytes) != 0
            || memcmp(state->chip[c].memory, now->memory.at, now->memory.bytes) != 0
            || memcmp(state->chip[c].writers, now->writers.at, now->writers.bytes) != 0)
            return false;
    }
    return state->count == bus_count_now();
}

/* ---- The call ---------------------------------------------------------------------------- */

/* The buffers of one chip as arguments. */
#define OF(side, c) \
    words_of(&(side).chip[c].record), call.lengths[c].record, \
    (side).chip[c].memory.at, call.lengths[c].memory, \
    words_of(&(side).chip[c].writers), call.lengths[c].writers

static uint64_t call_model(void)
{
    return model_bus_step(OF(model, 0), OF(model, 1), OF(model, 2), OF(model, 3),
                          words_of(&model.count), (uint16_t)call.event, call.pins);
}

static uint64_t call_library(void)
{
    return pcf8820_bus_step(OF(library, 0), OF(library, 1), OF(library, 2), OF(library, 3),
                            words_of(&library.count), (uint16_t)call.event, call.pins);
}

static uint64_t call_array(void)
{
    struct pcf8820_chip chips[CHIPS] = {
        { OF(library, 0) }, { OF(library, 1) }, { OF(library, 2) }, { OF(library, 3) }
    };
    return pcf8820_bus(chips, words_of(&library.count), (uint16_t)call.event, call.pins);
}

static void note_call(const char *name, uint16_t event, uint64_t pins)
{
    next_call(name, print_bus);
    for (size_t c = 0; c < CHIPS; c++)
        memcpy(call.record[c], library.chip[c].record.at, library.chip[c].record.bytes);
    call.count = bus_count_now();
    call.event = event;
    call.pins = pins;
}

static void compare_chip(const struct buffers *ours, const struct buffers *theirs)
{
    compare_contents("record", sizeof(uint64_t), &ours->record, &theirs->record);
    compare_contents("memory", sizeof(uint8_t), &ours->memory, &theirs->memory);
    compare_contents("writers", sizeof(uint64_t), &ours->writers, &theirs->writers);
}

static void check_chip(const struct buffers *ours, const struct buffers *theirs)
{
    compare_canaries("record", &ours->record, &theirs->record);
    compare_canaries("memory", &ours->memory, &theirs->memory);
    compare_canaries("writers", &ours->writers, &theirs->writers);
}

void bus_canaries(void)
{
    for (size_t c = 0; c < CHIPS; c++)
        check_chip(&model.chip[c], &library.chip[c]);
    compare_canaries("count", &model.count, &library.count);
}

uint64_t compare_bus(uint16_t event, uint64_t pins)
{
    static unsigned calls;
    bool array = calls++ % 2 == 1;
    note_call(array ? "bus" : "bus_step", event, pins);
    uint64_t theirs = array ? call_array() : call_library();
    uint64_t ours = call_model();
    equal_results(ours, theirs);
    for (size_t c = 0; c < CHIPS; c++)
        compare_chip(&model.chip[c], &library.chip[c]);
    compare_contents("count", sizeof(uint64_t), &model.count, &library.count);
    if (calls % CALLS_BETWEEN_CANARIES == 0)
        bus_canaries();
    count_call();
    return theirs;
}

void expect_bus(uint16_t event, uint64_t pins, uint64_t right)
{
    static struct bus_state before;
    bool refused = right < NOTHING;
    if (refused)
        bus_save(&before);
    uint64_t result = compare_bus(event, pins);
    if (result != right)
        fail("the result is %llu, and not %llu", (unsigned long long)result, (unsigned long long)right);
    if (refused && !unchanged(&before))
        fail("a refused call changed a buffer or the count");
}
