/* Counts of pixels, by number and not by the model alone: what a display byte does to counts, true or not,
 * and where it is refused by 16; that nothing else changes them or is refused so. */
#include "harness.h"
#include "records.h"
#include "themes.h"

#include <string.h>

enum { START = 256, STOP, READ_ACK, READ_NACK, RESET_PULSE, SENSOR = 512, UNLISTED = 261 };
enum { BAD_MEMORY = 1, BAD_RECORD, BAD_EVENT, COUNT_FULL, BAD_PIXEL_COUNT = 16 };
enum { COLUMNS = 101, LAST_BANK = 16 };

static const struct bus_phase data_phases[] = { { 4, 1 }, { 5, 1 } };

static void expect_counts(const char *what, const uint64_t *right)
{
    for (size_t v = 0; v < PIXEL_VALUES; v++)
        if (word_now(W_PIXELS_0 + v) != right[v])
            fail("%s: the count of value %zu is %llu, not %llu", what, v,
                 (unsigned long long)word_now(W_PIXELS_0 + v), (unsigned long long)right[v]);
}

/* ---- Display bytes ----------------------------------------------------------------------- */

/* What is there, counts that may be untrue among it, and the byte that is sent. */
struct writing {
    unsigned mode;
    uint64_t x, y;
    uint64_t counts[PIXEL_VALUES];
    uint8_t old, sent;
};

static size_t place_of(const struct writing *writing)
{
    uint64_t column = writing->mode & 1 ? COLUMNS - 1 - writing->x : writing->x;
    return COLUMNS * writing->y + column;
}

/* With DO the bits the other way round; bank 16 has six of them. */
static uint8_t stored(const struct writing *writing)
{
    unsigned byte = writing->sent;
    if (writing->mode >> 2 & 1) {
        unsigned turned = 0;
        for (unsigned bit = 0; bit < 8; bit++)
            turned |= (byte >> bit & 1) << (7 - bit);
        byte = turned;
    }
    return (uint8_t)(writing->y == LAST_BANK ? byte % 64 : byte);
}

/* Gives whether the byte fits. */
static bool counts_after(const struct writing *writing, uint64_t *after)
{
    uint64_t left[PIXEL_VALUES] = { 0 };
    uint64_t joined[PIXEL_VALUES] = { 0 };
    bool fits = true;
    add_pixels(left, place_of(writing), writing->old);
    add_pixels(joined, place_of(writing), stored(writing));
    for (size_t v = 0; v < PIXEL_VALUES; v++) {
        uint64_t with = writing->counts[v] + joined[v];
        fits = fits && with >= left[v] && with - left[v] <= ALL_PIXELS;
        after[v] = with - left[v];
    }
    return fits;
}

static void set_writing(const struct writing *writing)
{
    uint64_t words[MOST_WORDS];
    random_record(words);
    set_write_mode(words, writing->mode);
    set_phase(words, &data_phases[below(2)]);
    words[W_X] = writing->x;
    words[W_Y] = writing->y;
    memcpy(words + W_PIXELS_0, writing->counts, sizeof writing->counts);
    set_record(words);
    set_byte(place_of(writing), writing->old);
}

static void try_writing(const struct writing *writing)
{
    static struct state before;
    uint64_t after[PIXEL_VALUES];
    bool fits = counts_after(writing, after);
    set_writing(writing);
    save(&before);
    uint64_t result = compare_step(writing->sent);
    expect_result("a display byte", result, fits ? ACK : BAD_PIXEL_COUNT);
    if (fits)
        expect_counts("a display byte", after);
    else
        expect_state("a display byte that does not fit changes nothing", &before);
}

static const uint64_t edges[] = { 0, 1, 2, 3, 4, 5, 6762, 6763, 6764, 6765, 6766, 6767 };

enum { EDGES = sizeof edges / sizeof edges[0] };

static const uint64_t banks[] = { 0, 7, 15, 16 };

static struct writing random_writing(void)
{
    struct writing writing = { .mode = (unsigned)below(WRITE_MODES), .x = below(COLUMNS),
                               .y = banks[below(4)], .old = (uint8_t)below(256),
                               .sent = (uint8_t)below(256) };
    for (size_t v = 0; v < PIXEL_VALUES; v++)
        writing.counts[v] = below(2) ? edges[below(EDGES)] : 100 + below(6000);
    return writing;
}

/* One count at an edge, with bytes that have no, one, two, three and four pixels of a value. */
static void try_edge(size_t value, uint64_t edge)
{
    static const uint8_t bytes[] = { 0x00, 0x01, 0x15, 0x55, 0x2A, 0xAA, 0x3F, 0xFF, 0x1B, 0xE4, 0xC0 };
    enum { BYTES = sizeof bytes };
    for (unsigned i = 0; i < BYTES * BYTES; i++)
        for (size_t bank = 0; bank < 4; bank++) {
            struct writing writing = random_writing();
            for (size_t v = 0; v < PIXEL_VALUES; v++)
                writing.counts[v] = v == value ? edge : 3000;
            writing.y = banks[bank];
            writing.old = bytes[i / BYTES];
            writing.sent = bytes[i % BYTES];
            try_writing(&writing);
        }
}

/* All counts at 0, and all at 6,767: taken are those bytes alone that bring as many of each value as
 * they take, and these leave the counts as they are. */
static void try_full(uint64_t count, uint64_t bank, unsigned stride)
{
    struct writing writing = random_writing();
    for (size_t v = 0; v < PIXEL_VALUES; v++)
        writing.counts[v] = count;
    writing.y = bank;
    for (unsigned old = 0; old < 256; old++)
        for (unsigned sent = old % stride; sent < 256; sent += stride) {
            writing.mode = sent & 1;
            writing.old = (uint8_t)old;
            writing.sent = (uint8_t)sent;
            try_writing(&writing);
        }
}

/* The pixels of a byte in another order, which bring back all that they take. */
static void try_turned(uint64_t count, uint64_t bank)
{
    struct writing writing = random_writing();
    unsigned bits = bank == LAST_BANK ? 6 : 8;
    uint64_t after[PIXEL_VALUES];
    for (size_t v = 0; v < PIXEL_VALUES; v++)
        writing.counts[v] = count;
    writing.y = bank;
    writing.mode &= 3;
    for (unsigned old = 0; old < 256; old++)
        for (unsigned by = 0; by < bits; by += 2) {
            unsigned pixels = old % (1u << bits);
            writing.old = (uint8_t)old;
            writing.sent = (uint8_t)((pixels << by | pixels >> (bits - by)) % (1u << bits));
            if (!counts_after(&writing, after))
                fail("a byte that brings back what it takes does not fit");
            try_writing(&writing);
        }
}

static void try_writings(void)
{
    for (size_t v = 0; v < PIXEL_VALUES; v++)
        for (size_t e = 0; e < EDGES; e++) {
            lend_usual();
            try_edge(v, edges[e]);
        }
    for (size_t b = 0; b < 4; b++) {
        lend_usual();
        try_full(0, banks[b], quick ? 13 : 1);
        try_full(ALL_PIXELS, banks[b], quick ? 13 : 1);
        try_turned(0, banks[b]);
        try_turned(ALL_PIXELS, banks[b]);
    }
    for (int i = 0; i < (quick ? 20000 : 200000); i++) {
        struct writing writing = random_writing();
        try_writing(&writing);
    }
}

/* ---- Other events, and other refusals ---------------------------------------------------- */

/* A byte takes four pixels of value 0, and there are none by the counts. */
static const struct writing unfit = { .counts = { 0, 5, 5, 5 }, .y = 3, .x = 20, .old = 0x00, .sent = 0xFF };

static bool takes_data(const struct bus_phase *phase)
{
    return (phase->phase == 4 || phase->phase == 5) && phase->rs == 1;
}

/* Whatever the counts are, an event that is no display byte passes and leaves them. */
static void try_other(const struct bus_phase *phase, uint16_t event)
{
    struct writing writing = random_writing();
    uint64_t words[MOST_WORDS];
    random_record(words);
    set_phase(words, phase);
    words[W_Y] = writing.y;
    memcpy(words + W_PIXELS_0, writing.counts, sizeof writing.counts);
    set_record(words);
    if (compare_step(event) < NOTHING)
        fail("event %u is refused", event);
    expect_counts("an event that is no display byte", writing.counts);
}

static void try_others(const struct bus_phase *phase)
{
    for (unsigned event = takes_data(phase) ? START : 0; event < SENSOR + 256; event++)
        if (event <= RESET_PULSE || event >= SENSOR)
            try_other(phase, (uint16_t)event);
}

/* Set anew for each: the byte alone is refused by 16, and with another fault by that. */
static void try_order(void)
{
    static struct state state;
    lend_usual();
    set_writing(&unfit);
    set_count(UINT64_MAX - 1);
    expect_result("16 alone", compare_step(unfit.sent), BAD_PIXEL_COUNT);
    set_count(UINT64_MAX);
    expect_result("4 and 16", compare_step(unfit.sent), COUNT_FULL);
    expect_result("3, where a display byte would give 16", compare_step(UNLISTED), BAD_EVENT);
    for (size_t v = 0; v < PIXEL_VALUES; v++) {
        set_writing(&unfit);
        save(&state);
        state.record[W_PIXELS_0 + v] = ALL_PIXELS + 1;
        restore(&state);
        expect_result("a count of 6,768", compare_step(unfit.sent), BAD_RECORD);
        expect_result("a count of 6,768 and START", compare_step(START), BAD_RECORD);
        expect_state("a refused event changes nothing", &state);
    }
    lend(RECORD_LEN, MOST_PLACES, PLACES, AT_END);
    set_writing(&unfit);
    expect_result("1 and 16", compare_step(unfit.sent), BAD_MEMORY);
}

/* ---- Runs -------------------------------------------------------------------------------- */

enum { FITTING = 12, HEAD = 4, LENGTH = HEAD + FITTING + 3 };

/* A command out of range and one that is unknown, then display bytes of four pixels each into a memory
 * of zeros. The count of value 0 has room for this many; then one that does not fit, and two events. */
static void set_cut(uint64_t fitting, uint64_t count, uint16_t *events)
{
    static const uint16_t head[HEAD] = { 0xE5, 0x80, 0x02, 0x40 };
    uint64_t words[MOST_WORDS];
    reset_record(words, 0);
    set_phase(words, &bus_phases[4]);
    words[W_X] = below(COLUMNS);
    words[W_Y] = below(LAST_BANK - 1);
    words[W_PIXELS_0] = 4 * fitting;
    lend_usual();
    fill_memory(0x00, 0x00);
    set_record(words);
    set_count(count);
    for (size_t i = 0; i < LENGTH; i++)
        events[i] = i < HEAD ? head[i] : 0xFF;
    events[LENGTH - 1] = STOP;
}

/* The run stops there; what came before stands, and is what the steps do. */
static void try_cut(uint64_t fitting)
{
    static struct state before, after;
    uint16_t events[LENGTH];
    struct ran ran;
    uint64_t done = HEAD + fitting;
    set_cut(fitting, below(1000), events);
    save(&before);
    for (uint64_t i = 0; i < done; i++)
        if (compare_step(events[i]) < NOTHING)
            fail("display byte %llu of %llu that fit is refused", (unsigned long long)i,
                 (unsigned long long)fitting);
    expect_counts("display bytes that fit", (const uint64_t[]) { 0, 0, 0, 4 * fitting });
    save(&after);
    expect_result("the byte behind them", compare_step(events[done]), BAD_PIXEL_COUNT);
    restore(&before);
    expect_result("a run up to 16", compare_run(events, LENGTH, &ran), BAD_PIXEL_COUNT);
    expect_ran("a run up to 16", &ran, &(struct ran) { done, 1, 1 });
    expect_state("a run up to 16 and the steps", &after);
    expect_result("the run again, behind what was done", compare_run(events + done, 1, &ran),
                  BAD_PIXEL_COUNT);
    expect_ran("the run again", &ran, &(struct ran) { 0 });
}

/* A refused byte can be left out, or the pixels counted again; then the rest is taken. */
static void try_way_on(uint64_t fitting)
{
    uint16_t events[LENGTH];
    struct ran ran;
    uint64_t done = HEAD + fitting;
    set_cut(fitting, 0, events);
    compare_run(events, LENGTH, &ran);
    expect_result("a byte that changes no pixel", compare_step(0x00), ACK);
    expect_result("the rest without display bytes", compare_run(events + LENGTH - 1, 1, &ran), 0);
    set_cut(fitting, 0, events);
    compare_run(events, LENGTH, &ran);
    set_true_pixels();
    expect_result("the rest after a new count", compare_run(events + done, LENGTH - done, &ran), 0);
    expect_true_pixels();
}

/* The same place in the list with the other refusals of an event, which come first. */
static void try_other_cuts(uint64_t fitting)
{
    uint16_t events[LENGTH];
    struct ran ran;
    uint64_t done = HEAD + fitting;
    set_cut(fitting, UINT64_MAX - done, events);
    expect_result("4 and 16 in a run", compare_run(events, LENGTH, &ran), COUNT_FULL);
    expect_ran("4 and 16 in a run", &ran, &(struct ran) { done, 1, 1 });
    set_cut(fitting, UINT64_MAX - done - 1, events);
    expect_result("16 with one number left", compare_run(events, LENGTH, &ran), BAD_PIXEL_COUNT);
    set_cut(fitting, UINT64_MAX - done, events);
    events[done] = UNLISTED;
    expect_result("3 in a run", compare_run(events, LENGTH, &ran), BAD_EVENT);
    expect_ran("3 in a run", &ran, &(struct ran) { done, 1, 1 });
}

void test_pixels(void)
{
    theme("pixel counts");
    try_writings();
    for (size_t p = 0; p < PHASES; p++) {
        lend_usual();
        for (int i = 0; i < (quick ? 1 : 8); i++)
            try_others(&bus_phases[p]);
    }
    try_order();
    for (uint64_t fitting = 0; fitting <= FITTING; fitting++) {
        try_cut(fitting);
        try_way_on(fitting);
        try_other_cuts(fitting);
    }
}
