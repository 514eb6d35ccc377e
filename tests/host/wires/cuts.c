/* Short traffic in two and in three parts, cut at every place. */
#include "records.h"
#include "themes.h"
#include "traffic.h"
#include "wires_calls.h"

enum { LEAST_CUT = 40, MOST_CUT = 120 };

static struct lines lines;

/* The state at the end, uncut. */
static uint64_t end[MOST_WORDS];

/* The samples from one place to another. Gives how many events are told by then. */
static size_t feed(size_t from, size_t to, size_t told)
{
    size_t room = lines.told - told + (size_t)below(2);
    struct fed fed = compare_wires(lines.samples + from, to - from, room);
    if (fed.result != 0 || fed.consumed != to - from || told + fed.written > lines.told)
        fail("samples %zu to %zu: not all consumed, or too many events", from, to);
    for (size_t i = 0; i < fed.written; i++)
        if (fed.events[i] != lines.events[told + i])
            fail("samples %zu to %zu: event %zu is another", from, to, told + i);
    return told + fed.written;
}

static void try_cut(size_t first, size_t second)
{
    start_again();
    size_t told = feed(0, first, 0);
    told = feed(first, second, told);
    told = feed(second, lines.length, told);
    if (told != lines.told)
        fail("cut at %zu and %zu: %zu events", first, second, told);
    expect_state(end);
}

static void uncut(void)
{
    start_again();
    feed(0, lines.length, 0);
    state_now(end);
}

/* Two parts are three of which one is empty. */
static void try_cuts(void)
{
    uncut();
    for (size_t second = 0; second <= lines.length; second++) {
        try_cut(0, second);
        for (size_t first = quick ? second : 1; first <= second; first++)
            try_cut(first, second);
    }
}

/* One sample a call. */
static void try_single(void)
{
    size_t told = 0;
    uncut();
    start_again();
    for (size_t i = 0; i < lines.length; i++)
        told = feed(i, i + 1, told);
    if (told != lines.told)
        fail("one sample a call: %zu events", told);
    expect_state(end);
}

/* Traffic that is short enough for cuts at every two places. */
static void make_short(void (*make)(struct lines *, struct sampling, size_t), struct sampling sampling)
{
    do
        make(&lines, sampling, LEAST_CUT);
    while (lines.length > MOST_CUT);
}

void test_cuts(void)
{
    theme("cuts");
    for (int i = 0; i < (quick ? 3 : 6); i++) {
        make_short(clean_traffic, each_once);
        try_cuts();
        make_short(unclear_traffic, each_once);
        try_cuts();
        make_short(unclear_traffic, noisy);
        try_cuts();
        unclear_traffic(&lines, some_often, 2000);
        try_single();
    }
}
