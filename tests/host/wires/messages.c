/* Long random traffic, at once and in random parts, with the events that were put on the lines; and
 * samples that are no traffic at all. */
#include "records.h"
#include "themes.h"
#include "traffic.h"
#include "wires_calls.h"

#include <string.h>

enum { MOST_NOISE = 3000 };

static struct lines lines;

static void expect_events(const struct fed *fed, size_t from)
{
    for (size_t i = 0; i < fed->written; i++)
        if (fed->events[i] != lines.events[from + i])
            fail("event %zu is %u, and not %u", from + i, fed->events[i], lines.events[from + i]);
}

static void expect_unclear(void)
{
    uint64_t state[MOST_WORDS];
    state_now(state);
    if (state[W_UNCLEAR] != lines.unclear)
        fail("%llu unclear samples, and not %llu", (unsigned long long)state[W_UNCLEAR],
             (unsigned long long)lines.unclear);
}

static void try_at_once(void)
{
    start_again();
    struct fed fed = expect_wires(lines.samples, lines.length, lines.told + (size_t)below(3), 0,
                                  lines.length, lines.told);
    expect_events(&fed, 0);
    expect_unclear();
}

/* Mostly short, sometimes empty, sometimes long. */
static size_t random_part(size_t left)
{
    size_t part = (size_t)(below(8) ? below(20) : below(3000));
    return part < left ? part : left;
}

/* With room for each part's events, and the end of the whole. */
static void try_in_parts(void)
{
    uint64_t end[MOST_WORDS];
    size_t told = 0;
    state_now(end);
    start_again();
    for (size_t at = 0; at < lines.length;) {
        size_t part = random_part(lines.length - at);
        struct fed fed = compare_wires(lines.samples + at, part, part);
        if (fed.result != 0 || fed.consumed != part)
            fail("a part of %zu samples is not consumed", part);
        expect_events(&fed, told);
        told += fed.written;
        at += part;
    }
    if (told != lines.told)
        fail("%zu events in parts, and not %zu", told, lines.told);
    expect_state(end);
}

static void try_traffic(struct sampling sampling, size_t samples)
{
    clean_traffic(&lines, sampling, samples);
    try_at_once();
    try_in_parts();
    unclear_traffic(&lines, sampling, samples);
    try_at_once();
    try_in_parts();
}

/* An event with every sample: START and STOP by turns. */
static void try_most_events(void)
{
    clear_lines(&lines, each_once);
    for (int i = 0; i < MOST_TOLD / 2; i++) {
        put_start(&lines);
        put_stop(&lines);
    }
    try_at_once();
}

/* Any samples of 0 to 3, from wherever the ones before ended. A line changes seldom, both still less,
 * so that there are bytes among them. */
static void try_noise(size_t samples)
{
    static const unsigned changes[] = { 0, SCL, SCL, SCL, SCL, SCL, SCL, SDA };
    static uint8_t noise[MOST_NOISE];
    unsigned level = BOTH;
    for (size_t i = 0; i < samples; i++) {
        level ^= below(64) ? changes[below(sizeof changes / sizeof changes[0])] : BOTH;
        noise[i] = (uint8_t)(below(256) ? level : below(4));
    }
    compare_wires(noise, samples, samples);
}

void test_messages(void)
{
    theme("messages");
    for (int i = 0; i < (quick ? 4 : 60); i++) {
        try_traffic(each_once, (size_t)below(quick ? 2000 : 20000));
        try_traffic(some_often, (size_t)below(quick ? 2000 : 20000));
        try_traffic(noisy, (size_t)below(quick ? 2000 : 20000));
    }
    try_traffic(some_often, 70000);
    try_most_events();
    for (int i = 0; i < (quick ? 20 : 1000); i++)
        try_noise((size_t)below(MOST_NOISE));
}
