/* Long random traffic: first step by step, then the same events by run, which must end in the same
 * state and count what the steps answered. Refused events in the middle cut the run; it is then
 * taken up again behind them. With true counts of pixels, which stay true; and with any counts, by
 * which display bytes are refused, too. */
#include "harness.h"
#include "records.h"
#include "themes.h"

#include <string.h>

enum { START = 256, STOP, READ_ACK, READ_NACK, RESET_PULSE, SENSOR = 512 };

static uint16_t list[MOST_EVENTS];
static size_t length;
static size_t wanted;

static void add(uint64_t event)
{
    if (length < wanted)
        list[length++] = (uint16_t)event;
}

static uint64_t address(uint64_t pins)
{
    return 0x78 | (below(10) ? pins : below(4)) << 1;
}

/* Any byte, or one that moves to another page or near an edge. */
static uint64_t command(void)
{
    switch (below(8)) {
    case 0: return 0x01;
    case 1: return 0x08 + below(8);
    case 2: return 0x80 + 95 + below(8);
    case 3: return 0x40 + 14 + below(5);
    case 4: return 0x10 + below(16);
    default: return below(256);
    }
}

static void add_write(uint64_t pins)
{
    uint64_t singles = below(6);
    uint64_t endless = below(4) ? below(12) : below(300);
    uint64_t rs = below(2);

    add(START);
    add(address(pins));
    for (uint64_t i = 0; i < singles; i++) {
        uint64_t data = below(3) == 0;
        add(0x80 | data << 6 | below(64));
        add(data ? below(256) : command());
    }
    add(rs << 6 | below(64));
    for (uint64_t i = 0; i < endless; i++)
        add(rs ? below(256) : command());
    if (below(4))
        add(STOP);
}

static void add_read(uint64_t pins)
{
    uint64_t bytes = below(4);
    add(START);
    add(address(pins) | 1);
    for (uint64_t i = 0; i < bytes; i++)
        add(READ_ACK);
    if (below(2))
        add(READ_NACK);
    if (below(2))
        add(below(256));
    if (below(2))
        add(READ_ACK + below(2));
    if (below(4))
        add(STOP);
}

/* Sets SM, leaves power-down and offers a reading. */
static void add_measurement(uint64_t pins)
{
    add(START);
    add(0x78 | pins << 1);
    add(0x00);
    add(0x01);
    add(0x10);
    add(0x0A);
    add(0x21);
    add(SENSOR + below(256));
}

static void add_traffic(uint64_t pins)
{
    switch (below(40)) {
    case 0: add(RESET_PULSE); break;
    case 1: case 2: add(SENSOR + below(256)); break;
    case 3: add(START + below(5)); break;
    case 4: case 5: add(below(256)); break;
    case 6: case 7: add_measurement(pins); break;
    case 8: case 9: case 10: case 11: add_read(pins); break;
    default: add_write(pins); break;
    }
}

static void make_list(uint64_t pins, size_t events, uint64_t refused)
{
    length = 0;
    wanted = events;
    while (length < wanted)
        add_traffic(pins);
    for (uint64_t i = 0; i < refused && length > 0; i++)
        list[below(length)] = unlisted_event();
}

/* Step by step; a refused event changes nothing and is not counted. */
static struct ran step_through(void)
{
    struct ran sum = { 0 };
    for (size_t i = 0; i < length; i++) {
        uint64_t answer = compare_step(list[i]);
        sum.done += answer >= 256;
        sum.unknown += answer == COMMAND_UNKNOWN;
        sum.out_of_range += answer == COMMAND_OUT_OF_RANGE;
    }
    return sum;
}

static uint64_t run_part(size_t from, size_t part, struct ran *sum, uint64_t *done)
{
    struct ran ran;
    uint64_t refusal = compare_run(list + from, part, &ran);
    sum->done += ran.done;
    sum->unknown += ran.unknown;
    sum->out_of_range += ran.out_of_range;
    *done = ran.done;
    return refusal;
}

/* Runs on behind each refused event to the end of the list. */
static struct ran run_through(void)
{
    struct ran sum = { 0 };
    size_t from = 0;
    while (from <= length) {
        uint64_t done;
        uint64_t refusal = run_part(from, length - from, &sum, &done);
        from += (size_t)done + 1;
        if (refusal == 0)
            break;
    }
    return sum;
}

/* The same events by several runs, cut anywhere. */
static struct ran run_in_parts(void)
{
    struct ran sum = { 0 };
    size_t from = 0;
    while (from < length) {
        uint64_t done;
        size_t part = (size_t)below(200);
        if (part > length - from)
            part = length - from;
        uint64_t refusal = run_part(from, part, &sum, &done);
        from += (size_t)done + (refusal != 0);
    }
    return sum;
}

/* Gives the pins. */
static uint64_t lend_traffic(bool true_pixels)
{
    uint64_t words[MOST_WORDS];
    random_record(words);
    if (below(2))
        reset_record(words, below(4));
    lend_usual();
    set_record(words);
    if (true_pixels)
        set_true_pixels();
    return words[W_PINS];
}

static void try_traffic(size_t events, uint64_t refused, bool true_pixels)
{
    static struct state before, after;
    uint64_t pins = lend_traffic(true_pixels);
    make_list(pins, events, refused);

    save(&before);
    struct ran steps = step_through();
    save(&after);
    restore(&before);
    struct ran runs = run_through();
    expect_state("the runs and the steps", &after);
    expect_ran("the runs against the steps", &runs, &steps);
    restore(&before);
    runs = run_in_parts();
    expect_state("the parts and the steps", &after);
    expect_ran("the parts against the steps", &runs, &steps);
    if (true_pixels)
        expect_true_pixels();
}

/* Counts that are true before an event are true after it, whatever it is; and none is refused. */
static void try_each(size_t events)
{
    uint64_t pins = lend_traffic(true);
    set_count(0);
    make_list(pins, events, 0);
    for (size_t i = 0; i < length; i++) {
        uint64_t answer = compare_step(list[i]);
        if (answer < NOTHING)
            fail("event %u is refused by %llu", list[i], (unsigned long long)answer);
        expect_true_pixels();
    }
}

/* Single runs of any length up to a few hundred, from every kind of record. */
static void try_short(int times)
{
    uint64_t words[MOST_WORDS];
    struct ran ran;
    for (int i = 0; i < times; i++) {
        random_record(words);
        set_record(words);
        make_list(words[W_PINS], (size_t)below(i % 10 ? 20 : 300), below(8) == 0);
        compare_run(list, length, &ran);
    }
}

void test_runs(void)
{
    theme("runs");
    try_traffic(0, 0, true);
    for (int i = 0; i < (quick ? 20 : 400); i++)
        try_traffic((size_t)below(3000), below(3) ? below(6) : 0, i % 4 != 0);
    try_traffic(quick ? 5000 : MOST_EVENTS, 0, true);
    for (int i = 0; i < (quick ? 5 : 40); i++)
        try_each((size_t)below(1000));
    try_short(quick ? 2000 : 200000);
}
