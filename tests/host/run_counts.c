/* How many unknown commands a run counts and how many out of range, by number and not by the model
 * alone: among other bytes, up to a refused event, and where the run is refused at entry. */
#include "harness.h"
#include "records.h"
#include "themes.h"

enum { START = 256, STOP, READ_ACK, READ_NACK, RESET_PULSE, SENSOR = 512, UNLISTED = 261 };

struct counted {
    const char *what;
    const uint16_t *events;
    size_t length;
    uint64_t unknown, out_of_range;
};

#define LENGTH(...) (sizeof(uint16_t[]) { __VA_ARGS__ } / sizeof(uint16_t))
#define EVENTS(...) (const uint16_t[]) { __VA_ARGS__ }, LENGTH(__VA_ARGS__)

/* From the reset record with pins 0. */
static const struct counted lists[] = {
    { "one unknown", EVENTS(START, 0x78, 0x80, 0x02, STOP), 1, 0 },
    { "X 101", EVENTS(START, 0x78, 0x80, 0xE5, STOP), 0, 1 },
    { "Y 17", EVENTS(START, 0x78, 0x80, 0x51, STOP), 0, 1 },
    { "page 5", EVENTS(START, 0x78, 0x80, 0x0D, STOP), 0, 1 },
    { "the last event unknown", EVENTS(START, 0x78, 0x00, 0x02), 1, 0 },
    { "the last event out of range", EVENTS(START, 0x78, 0x00, 0xFF), 0, 1 },
    { "two unknown, four out of range",
      EVENTS(START, 0x78, 0x00, 0xE5, 0x02, 0xFF, 0x20, 0x51, 0x0D, 0x01, 0x00, 0x85, STOP), 2, 4 },
    { "three unknown, one out of range, each after a control byte",
      EVENTS(START, 0x78, 0x80, 0x03, 0x80, 0xE5, 0x80, 0x20, 0x80, 0x3F, 0x80, 0xE4), 3, 1 },
    { "one unknown three times, one out of range twice",
      EVENTS(START, 0x78, 0x00, 0x02, 0x02, 0x02, 0xE5, 0xE5, STOP), 3, 2 },
    { "one byte in every page",
      EVENTS(START, 0x78, 0x00, 0xE5, 0x09, 0xE5, 0x01, 0x0A, 0xE5, 0x01, 0x0B, 0xE5, 0x01, 0x0C,
             0xE5, STOP), 3, 1 },
    { "on both sides of a reset pulse",
      EVENTS(START, 0x78, 0x00, 0x02, 0xE5, 0xE5, RESET_PULSE, START, 0x78, 0x00, 0x02, 0xE5),
      2, 3 },
    { "among reads and sensor readings",
      EVENTS(START, 0x78, 0x00, 0x02, SENSOR + 0x02, READ_ACK, 0xE5, SENSOR + 0xE5, READ_NACK,
             0xE5), 1, 2 },

    { "every command taken",
      EVENTS(START, 0x78, 0x00, 0x00, 0x01, 0xE4, 0xE4, 0x50, 0x0C, 0x58, 0x00, 0x01, STOP), 0, 0 },
    { "display bytes", EVENTS(START, 0x78, 0x40, 0x02, 0xE5, 0x20, 0xFF, STOP), 0, 0 },
    { "single display bytes", EVENTS(START, 0x78, 0xC0, 0x02, 0xC0, 0xE5, STOP), 0, 0 },
    { "control bytes", EVENTS(START, 0x78, 0xE5, 0x00, 0x02, 0x00, STOP), 0, 0 },
    { "address bytes", EVENTS(START, 0x02, START, 0xE5, STOP), 0, 0 },
    { "bytes for another chip", EVENTS(START, 0x7A, 0x80, 0x02, 0x80, 0xE5, STOP), 0, 0 },
    { "bytes while reading", EVENTS(START, 0x79, 0x02, 0xE5, STOP), 0, 0 },
    { "bytes while idle", EVENTS(0x02, 0xE5, STOP, 0x02, 0xE5), 0, 0 },
};

/* Commands, and what is counted among the events before each. */
static const struct {
    uint16_t event;
    uint64_t unknown, out_of_range;
} cuts[] = {
    { START, 0, 0 }, { 0x78, 0, 0 }, { 0x00, 0, 0 }, { 0xE5, 0, 0 }, { 0x02, 0, 1 }, { 0xE6, 1, 1 },
    { 0x20, 1, 2 }, { 0x51, 2, 2 }, { 0x0F, 2, 3 }, { 0x85, 2, 4 }, { 0x03, 2, 4 }, { STOP, 3, 4 }
};

enum { CUTS = sizeof cuts / sizeof cuts[0] };

static void expect_run(const char *what, const uint16_t *events, size_t length, uint64_t refusal,
                       struct ran right)
{
    struct ran ran;
    uint64_t result = compare_run(events, length, &ran);
    if (result != refusal)
        fail("%s: result %llu, not %llu", what, (unsigned long long)result,
             (unsigned long long)refusal);
    expect_ran(what, &ran, &right);
}

static void set_reset_record(uint64_t count)
{
    uint64_t words[MOST_WORDS];
    reset_record(words, 0);
    set_record(words);
    set_true_pixels();
    set_count(count);
}

static void try_lists(void)
{
    for (size_t l = 0; l < sizeof lists / sizeof lists[0]; l++) {
        const struct counted *list = &lists[l];
        lend_usual();
        set_reset_record(below(1000));
        expect_run(list->what, list->events, list->length, 0,
                   (struct ran) { list->length, list->unknown, list->out_of_range });
    }
}

/* The list ends before this event, or the event is refused, which is then not counted. */
static void try_cut(size_t at)
{
    uint16_t events[CUTS];
    struct ran right = { at, cuts[at].unknown, cuts[at].out_of_range };
    for (size_t i = 0; i < CUTS; i++)
        events[i] = cuts[i].event;
    set_reset_record(5);
    expect_run("the list ends", events, at, 0, right);
    set_reset_record(UINT64_MAX - at);
    expect_run("the count is full", events, CUTS, 4, right);
    events[at] = UNLISTED;
    set_reset_record(5);
    expect_run("an unlisted event", events, CUTS, 3, right);
    set_reset_record(UINT64_MAX - at);
    expect_run("an unlisted event, and the count is full", events, CUTS, 3, right);
}

/* In a phase that takes commands, with events and without. */
static void try_entry(size_t record_len, size_t memory_len, size_t writers_len, uint64_t x,
                      uint64_t refusal)
{
    static const uint16_t commands[] = { 0x02, 0xE5, 0xE5 };
    uint64_t words[MOST_WORDS];
    reset_record(words, 0);
    set_phase(words, &(struct bus_phase) { 5, 0 });
    words[W_X] = x;
    lend(record_len, memory_len, writers_len, AT_END);
    set_record(words);
    expect_run("no events", commands, 0, refusal, (struct ran) { 0 });
    expect_run("three commands", commands, 3, refusal,
               refusal == 0 ? (struct ran) { 3, 1, 2 } : (struct ran) { 0 });
}

static void try_entries(void)
{
    try_entry(RECORD_LEN, PLACES, PLACES, 100, 0);
    try_entry(RECORD_LEN, PLACES - 1, PLACES, 100, 1);
    try_entry(RECORD_LEN, PLACES, PLACES + 1, 100, 1);
    try_entry(RECORD_LEN, PLACES, PLACES, 101, 2);
    try_entry(RECORD_LEN - 1, PLACES, PLACES, 100, 2);
    try_entry(RECORD_LEN + 1, PLACES, 0, 101, 1);
}

/* More commands of one kind than 16 bits count, and more of the other than 8 bits do. */
static void try_many(uint16_t often, uint16_t less_often, uint64_t unknown, uint64_t out_of_range)
{
    static uint16_t events[MOST_EVENTS] = { START, 0x78, 0x00 };
    for (size_t i = 3; i < MOST_EVENTS; i++)
        events[i] = i % 100 == 0 ? less_often : often;
    lend_usual();
    set_reset_record(0);
    expect_run("many commands", events, MOST_EVENTS, 0,
               (struct ran) { MOST_EVENTS, unknown, out_of_range });
}

void test_run_counts(void)
{
    theme("run counts");
    try_lists();
    for (size_t at = 0; at < CUTS; at++)
        try_cut(at);
    try_entries();
    try_many(0x02, 0xE5, 79198, 799);
    try_many(0xE5, 0x02, 799, 79198);
}
