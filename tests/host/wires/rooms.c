/* Room for the events: none, too little, just enough and more; and how a host goes on after 15. */
#include "records.h"
#include "themes.h"
#include "traffic.h"
#include "wires_calls.h"

#include <string.h>

static struct lines lines;

static void expect_events(const struct fed *fed, size_t from)
{
    if (memcmp(fed->events, lines.events + from, fed->written * sizeof lines.events[0]) != 0)
        fail("the events from the one of number %zu on are others", from);
}

/* The state after the first samples, with room for all their events. */
static void state_after(size_t samples, uint64_t *state)
{
    start_again();
    if (compare_wires(lines.samples, samples, samples).result != 0)
        fail("%zu samples are refused", samples);
    state_now(state);
}

/* The first event that has no room is not told, nor is its sample consumed. */
static void try_room(size_t room)
{
    uint64_t right[MOST_WORDS];
    bool fits = room >= lines.told;
    size_t consumed = fits ? lines.length : lines.places[room];
    state_after(consumed, right);
    start_again();
    struct fed fed = expect_wires(lines.samples, lines.length, room, fits ? 0 : NO_ROOM, consumed,
                                  fits ? lines.told : room);
    expect_events(&fed, 0);
    expect_state(right);
}

/* With no room the same sample is given back again and again, and with room for one event it goes on. */
static void try_no_room(void)
{
    start_again();
    for (size_t i = 0, at = 0; i < lines.told; i++) {
        size_t wait = lines.places[i] - at;
        const uint8_t *samples = lines.samples + at;
        expect_wires(samples, lines.length - at, 0, NO_ROOM, wait, 0);
        at += wait;
        expect_refused(lines.samples + at, lines.length - at, 0, NO_ROOM);
        struct fed fed = expect_wires(lines.samples + at, 1, 1, 0, 1, 1);
        expect_events(&fed, i);
        at++;
    }
}

/* On and on with a buffer of any size, up to the last sample. */
static void try_on(uint64_t most_room)
{
    uint64_t end[MOST_WORDS];
    size_t at = 0;
    size_t told = 0;
    uint64_t result = NO_ROOM;
    state_after(lines.length, end);
    start_again();
    while (result == NO_ROOM) {
        size_t room = (size_t)below(most_room + 1);
        struct fed fed = compare_wires(lines.samples + at, lines.length - at, room);
        if (fed.result == NO_ROOM && fed.written != room)
            fail("15, with room left");
        expect_events(&fed, told);
        at += fed.consumed;
        told += fed.written;
        result = fed.result;
    }
    if (result != 0 || at != lines.length || told != lines.told)
        fail("gone on after 15 to %zu samples and %zu events: %llu", at, told, (unsigned long long)result);
    expect_state(end);
}

static void try_rooms(void)
{
    size_t need = lines.told;
    size_t step = 1 + need / (quick ? 8 : 40);
    for (size_t room = 0; room < need; room += step)
        try_room(room);
    for (size_t room = need < 2 ? 0 : need - 2; room <= need + 2; room++)
        try_room(room);
    try_room(1);
    try_no_room();
    try_on(1);
    try_on(5);
    try_on(need + 2);
}

void test_rooms(void)
{
    theme("rooms");
    for (int i = 0; i < (quick ? 5 : 60); i++) {
        clean_traffic(&lines, each_once, (size_t)below(400));
        try_rooms();
        unclear_traffic(&lines, noisy, (size_t)below(400));
        try_rooms();
        unclear_traffic(&lines, some_often, quick ? 500 : (size_t)below(10000));
        try_rooms();
    }
}
