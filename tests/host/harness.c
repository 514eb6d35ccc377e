#include "harness.h"

#include "model.h"
#include "pcf8820.h"
#include "pixels.h"
#include "records.h"

#include <stdio.h>
#include <string.h>

struct side {
    struct lent record, memory, writers, count, events, done, unknown, out_of_range;
    struct lent pixels[PIXEL_VALUES];
};

static struct side model, library;

/* The present call, for the message at a difference. */
static struct {
    uint64_t record[MOST_WORDS];
    size_t record_len, memory_len, writers_len;
    uint64_t count;
    uint64_t pins;
    unsigned event;
    const uint16_t *events;
    size_t events_len;
} call;

/* ---- The message at a difference --------------------------------------------------------- */

static void print_lent(void)
{
    fprintf(stderr, "  record length %zu, memory length %zu, writers length %zu\n",
            call.record_len, call.memory_len, call.writers_len);
    print_record(call.record, call.record_len);
    fprintf(stderr, "  count before: %llu\n", (unsigned long long)call.count);
}

static void print_reset(void)
{
    print_lent();
    fprintf(stderr, "  pins: %llu\n", (unsigned long long)call.pins);
}

static void print_step(void)
{
    print_lent();
    fprintf(stderr, "  event: %u\n", call.event);
}

static void print_run(void)
{
    print_lent();
    fprintf(stderr, "  events:");
    for (size_t i = 0; i < call.events_len; i++)
        fprintf(stderr, " %u", call.events[i]);
    fprintf(stderr, "\n");
}

/* ---- Buffers ----------------------------------------------------------------------------- */

static void map_side(struct side *side)
{
    map_lent(&side->record, MOST_WORDS * sizeof(uint64_t));
    map_lent(&side->memory, MOST_PLACES);
    map_lent(&side->writers, MOST_PLACES * sizeof(uint64_t));
    map_lent(&side->count, sizeof(uint64_t));
    map_lent(&side->events, MOST_EVENTS * sizeof(uint16_t));
    map_lent(&side->done, sizeof(uint64_t));
    map_lent(&side->unknown, sizeof(uint64_t));
    map_lent(&side->out_of_range, sizeof(uint64_t));
    for (size_t v = 0; v < PIXEL_VALUES; v++)
        map_lent(&side->pixels[v], sizeof(uint64_t));
}

void harness_start(void)
{
    catch_signals();
    map_side(&model);
    map_side(&library);
    lend_usual();
}

static void lend_side(struct side *side, enum where where)
{
    put_lent(&side->record, call.record_len * sizeof(uint64_t), where);
    put_lent(&side->memory, call.memory_len, where);
    put_lent(&side->writers, call.writers_len * sizeof(uint64_t), where);
    put_lent(&side->count, sizeof(uint64_t), where);
    put_lent(&side->events, 0, where);
    put_lent(&side->done, sizeof(uint64_t), where);
    put_lent(&side->unknown, sizeof(uint64_t), where);
    put_lent(&side->out_of_range, sizeof(uint64_t), where);
    for (size_t v = 0; v < PIXEL_VALUES; v++)
        put_lent(&side->pixels[v], sizeof(uint64_t), where);
}

void lend(size_t record_len, size_t memory_len, size_t writers_len, enum where where)
{
    static struct state state;
    call.record_len = record_len;
    call.memory_len = memory_len;
    call.writers_len = writers_len;
    lend_side(&model, where);
    lend_side(&library, where);
    reset_record(state.record, 0);
    for (size_t i = 0; i < MOST_PLACES; i++) {
        state.memory[i] = (uint8_t)random64();
        state.writers[i] = random64();
    }
    state.count = random_count();
    restore(&state);
}

void lend_usual(void)
{
    static enum where where = AT_END;
    lend(RECORD_LEN, PLACES, PLACES, where);
    where = where == AT_END ? AT_START : AT_END;
}

void set_record(const uint64_t *words)
{
    memcpy(model.record.at, words, model.record.bytes);
    memcpy(library.record.at, words, library.record.bytes);
    set_count(random_count());
}

void set_count(uint64_t count)
{
    *words_of(&model.count) = count;
    *words_of(&library.count) = count;
}

void set_byte(size_t place, uint8_t byte)
{
    model.memory.at[place] = byte;
    library.memory.at[place] = byte;
}

void fill_memory(uint8_t byte, uint8_t of_last_bank)
{
    for (size_t place = 0; place < PLACES; place++)
        set_byte(place, place < FIRST_OF_LAST_BANK ? byte : of_last_bank);
}

void set_true_pixels(void)
{
    set_pixels(words_of(&model.record), library.memory.at);
    set_pixels(words_of(&library.record), library.memory.at);
}

void expect_true_pixels(void)
{
    uint64_t words[MOST_WORDS];
    set_pixels(words, library.memory.at);
    for (size_t v = 0; v < PIXEL_VALUES; v++)
        if (word_now(W_PIXELS_0 + v) != words[W_PIXELS_0 + v])
            fail("the count of value %zu is %llu, counted afresh %llu", v,
                 (unsigned long long)word_now(W_PIXELS_0 + v),
                 (unsigned long long)words[W_PIXELS_0 + v]);
}

uint64_t word_now(size_t place)
{
    return words_of(&library.record)[place];
}

void save(struct state *state)
{
    memcpy(state->record, library.record.at, library.record.bytes);
    memcpy(state->memory, library.memory.at, library.memory.bytes);
    memcpy(state->writers, library.writers.at, library.writers.bytes);
    state->count = *words_of(&library.count);
}

static void restore_side(struct side *side, const struct state *state)
{
    memcpy(side->record.at, state->record, side->record.bytes);
    memcpy(side->memory.at, state->memory, side->memory.bytes);
    memcpy(side->writers.at, state->writers, side->writers.bytes);
    *words_of(&side->count) = state->count;
}

void restore(const struct state *state)
{
    restore_side(&model, state);
    restore_side(&library, state);
}

void expect_state(const char *what, const struct state *state)
{
    if (memcmp(state->record, library.record.at, library.record.bytes) != 0
        || memcmp(state->memory, library.memory.at, library.memory.bytes) != 0
        || memcmp(state->writers, library.writers.at, library.writers.bytes) != 0
        || state->count != *words_of(&library.count))
        fail("the state is another: %s", what);
}

void expect_result(const char *what, uint64_t result, uint64_t right)
{
    if (result != right)
        fail("%s: the result is %llu, not %llu", what, (unsigned long long)result,
             (unsigned long long)right);
}

void expect_ran(const char *what, const struct ran *ran, const struct ran *right)
{
    if (memcmp(ran, right, sizeof *ran) != 0)
        fail("%s: done %llu, unknown %llu, out of range %llu, and not %llu, %llu, %llu", what,
             (unsigned long long)ran->done, (unsigned long long)ran->unknown,
             (unsigned long long)ran->out_of_range, (unsigned long long)right->done,
             (unsigned long long)right->unknown, (unsigned long long)right->out_of_range);
}

/* ---- Calls ------------------------------------------------------------------------------- */

static void note_call(const char *name, void (*describe)(void))
{
    next_call(name, describe);
    memcpy(call.record, library.record.at, library.record.bytes);
    call.count = *words_of(&library.count);
}

static uint64_t compare_call(uint64_t ours, uint64_t theirs)
{
    equal_results(ours, theirs);
    compare_lent("record", sizeof(uint64_t), &model.record, &library.record);
    compare_lent("memory", sizeof(uint8_t), &model.memory, &library.memory);
    compare_lent("writers", sizeof(uint64_t), &model.writers, &library.writers);
    compare_lent("count", sizeof(uint64_t), &model.count, &library.count);
    count_call();
    return theirs;
}

uint64_t compare_reset(uint64_t pins)
{
    note_call("reset", print_reset);
    call.pins = pins;
    uint64_t theirs = pcf8820_reset(words_of(&library.record), call.record_len, pins);
    uint64_t ours = model_reset(words_of(&model.record), call.record_len, pins);
    return compare_call(ours, theirs);
}

/* Each number that a call sets holds noise of its own, so that one that a side does not set is found to
 * differ. */
static void put_noise(struct lent *number)
{
    uint64_t noise = random64();
    fill_lent(number, &noise, sizeof noise);
}

static void prepare_counts(struct side *side)
{
    for (size_t v = 0; v < PIXEL_VALUES; v++)
        put_noise(&side->pixels[v]);
}

uint64_t compare_counts(uint64_t *counts)
{
    note_call("counts", print_lent);
    prepare_counts(&model);
    prepare_counts(&library);
    uint64_t theirs = pcf8820_counts(library.memory.at, call.memory_len,
                                     words_of(&library.pixels[0]), words_of(&library.pixels[1]),
                                     words_of(&library.pixels[2]), words_of(&library.pixels[3]));
    uint64_t ours = model_counts(model.memory.at, call.memory_len,
                                 words_of(&model.pixels[0]), words_of(&model.pixels[1]),
                                 words_of(&model.pixels[2]), words_of(&model.pixels[3]));
    for (size_t v = 0; v < PIXEL_VALUES; v++) {
        compare_lent("number of pixels", sizeof(uint64_t), &model.pixels[v], &library.pixels[v]);
        counts[v] = *words_of(&library.pixels[v]);
    }
    return compare_call(ours, theirs);
}

/* Every event that was done has added 1, and a refused one nothing. */
static void expect_count(uint64_t done)
{
    if (*words_of(&library.count) != call.count + done)
        fail("the count was %llu, and after %llu events it is %llu", (unsigned long long)call.count,
             (unsigned long long)done, (unsigned long long)*words_of(&library.count));
}

uint64_t compare_step(uint16_t event)
{
    note_call("step", print_step);
    call.event = event;
    uint64_t theirs = pcf8820_step(words_of(&library.record), call.record_len,
                                   library.memory.at, call.memory_len,
                                   words_of(&library.writers), call.writers_len,
                                   words_of(&library.count), event);
    uint64_t ours = model_step(words_of(&model.record), call.record_len,
                               model.memory.at, call.memory_len,
                               words_of(&model.writers), call.writers_len,
                               words_of(&model.count), event);
    compare_call(ours, theirs);
    expect_count(theirs >= NOTHING);
    return theirs;
}

static void prepare_run(struct side *side, const uint16_t *events, size_t events_len)
{
    fill_lent(&side->events, events, events_len * sizeof *events);
    put_noise(&side->done);
    put_noise(&side->unknown);
    put_noise(&side->out_of_range);
}

static void compare_ran(struct ran *ran)
{
    compare_lent("done", sizeof(uint64_t), &model.done, &library.done);
    compare_lent("unknown", sizeof(uint64_t), &model.unknown, &library.unknown);
    compare_lent("out_of_range", sizeof(uint64_t), &model.out_of_range, &library.out_of_range);
    ran->done = *words_of(&library.done);
    ran->unknown = *words_of(&library.unknown);
    ran->out_of_range = *words_of(&library.out_of_range);
}

uint64_t compare_run(const uint16_t *events, size_t events_len, struct ran *ran)
{
    note_call("run", print_run);
    call.events = events;
    call.events_len = events_len;
    prepare_run(&model, events, events_len);
    prepare_run(&library, events, events_len);
    uint64_t theirs = pcf8820_run(words_of(&library.record), call.record_len,
                                  library.memory.at, call.memory_len,
                                  words_of(&library.writers), call.writers_len,
                                  words_of(&library.count), events_of(&library.events), events_len,
                                  words_of(&library.done), words_of(&library.unknown),
                                  words_of(&library.out_of_range));
    uint64_t ours = model_run(words_of(&model.record), call.record_len,
                              model.memory.at, call.memory_len,
                              words_of(&model.writers), call.writers_len,
                              words_of(&model.count), events_of(&model.events), events_len,
                              words_of(&model.done), words_of(&model.unknown),
                              words_of(&model.out_of_range));
    compare_call(ours, theirs);
    compare_ran(ran);
    expect_count(ran->done);
    compare_lent("events", sizeof(uint16_t), &model.events, &library.events);
    if (memcmp(events, model.events.at, events_len * sizeof *events) != 0)
        fail("the events were changed");
    return theirs;
}
