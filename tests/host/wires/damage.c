/* Good samples with one that is damaged: both lines changed at once, or a byte above 3, at every place. */
#include "records.h"
#include "themes.h"
#include "traffic.h"
#include "wires_calls.h"

#include <string.h>

static struct lines lines;

/* ---- Both lines changed ------------------------------------------------------------------ */

/* How many events come before this sample. */
static size_t told_before(size_t place)
{
    size_t told = 0;
    while (told < lines.told && lines.places[told] < place)
        told++;
    return told;
}

/* Up to the place all is as it was. Then the first thing that is told is a START, if any. */
static void try_changed(size_t place)
{
    uint64_t state[MOST_WORDS];
    uint8_t kept = lines.samples[place];
    size_t before = told_before(place);
    lines.samples[place] = (uint8_t)((place == 0 ? BOTH : lines.samples[place - 1]) ^ BOTH);
    start_again();
    struct fed fed = compare_wires(lines.samples, lines.length, lines.length);
    state_now(state);
    if (fed.result != 0 || fed.consumed != lines.length || fed.written < before)
        fail("damage at %zu: not all consumed, or events lost that were before it", place);
    if (memcmp(fed.events, lines.events, before * sizeof lines.events[0]) != 0)
        fail("damage at %zu: the events before it are others", place);
    if (fed.written > before && fed.events[before] != START)
        fail("damage at %zu: %u is told after it, which is no START", place, fed.events[before]);
    if (state[W_UNCLEAR] == 0)
        fail("damage at %zu: no unclear sample", place);
    lines.samples[place] = kept;
}

/* ---- Bytes above 3 ----------------------------------------------------------------------- */

/* Refused, wherever it stands and whatever is before it, also with no room for an event. */
static void try_bad_byte(size_t place, unsigned byte)
{
    uint8_t kept = lines.samples[place];
    lines.samples[place] = (uint8_t)byte;
    start_again();
    expect_refused(lines.samples, lines.length, lines.told, BAD_SAMPLE);
    expect_refused(lines.samples, lines.length, 0, BAD_SAMPLE);
    expect_refused(lines.samples, place + 1, lines.told, BAD_SAMPLE);
    expect_refused(lines.samples + place, lines.length - place, 0, BAD_SAMPLE);
    expect_wires(lines.samples, place, lines.told, 0, place, told_before(place));
    expect_refused(lines.samples + place, lines.length - place, lines.told, BAD_SAMPLE);
    lines.samples[place] = kept;
}

static void try_bad_bytes(size_t place)
{
    static const unsigned others[] = { 4, 8, 16, 32, 64, 128, 252 };
    unsigned low = lines.samples[place];
    for (size_t i = 0; i < sizeof others / sizeof others[0]; i += quick ? 6 : 1)
        try_bad_byte(place, others[i] | low);
    try_bad_byte(place, 255);
    try_bad_byte(place, 4 + (unsigned)below(252));
}

/* Every byte behind a good sample. */
static void try_every_byte(void)
{
    for (unsigned byte = 0; byte < 256; byte++) {
        uint8_t samples[2] = { BOTH, (uint8_t)byte };
        start_again();
        if (byte > BOTH)
            expect_refused(samples, 2, 2, BAD_SAMPLE);
        else
            expect_wires(samples, 2, 2, 0, 2, byte == SCL);
    }
}

void test_damage(void)
{
    theme("damage");
    for (int i = 0; i < (quick ? 2 : 20); i++) {
        clean_traffic(&lines, i % 2 ? some_often : each_once, quick ? 100 : 300);
        for (size_t place = 0; place < lines.length; place++) {
            try_changed(place);
            try_bad_bytes(place);
        }
    }
    try_every_byte();
}
