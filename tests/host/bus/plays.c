/* Drawing lists on a bus: four lists, each compiled for one chip's record, played one after the other.
 * Each chip comes out as the plain reading of its own list says, whatever the phases were before, where
 * the counts of pixels are true. */
#include "buses.h"
#include "lists.h"
#include "pcf8820.h"
#include "plain.h"
#include "themes.h"

#include <string.h>

/* Every list has room: a line makes 101 runs at most, each of 17 display bytes and 10 events more. */
enum { MOST_LINES = 8, MOST_STREAM = MOST_LINES * 101 * (17 + 10) };

static struct text texts[CHIPS];

static struct stream {
    uint64_t length;
    uint16_t events[MOST_STREAM];
} streams[CHIPS];

/* The bus before, and what the plain reading makes of each chip. */
static struct bus_state before, plain, now;

static void compile(size_t chip)
{
    uint64_t clocks, line;
    uint64_t result = pcf8820_compile(before.chip[chip].record, RECORD_LEN, texts[chip].bytes,
                                      texts[chip].length, streams[chip].events, MOST_STREAM,
                                      &streams[chip].length, &clocks, &line);
    if (result != 0)
        fail("a good list is refused by %llu", (unsigned long long)result);
}

static void read_plainly(size_t chip)
{
    struct chip_state *read = &plain.chip[chip];
    if (model_plain(read->record, RECORD_LEN, read->memory, PLACES, texts[chip].bytes,
                    texts[chip].length) != 0)
        fail("the list has no plain reading");
}

/* ---- What is expected -------------------------------------------------------------------- */

static bool is_told(size_t word)
{
    return word <= W_OC && word != W_H && word != W_X && word != W_Y;
}

static void expect_plain(size_t chip)
{
    const struct chip_state *played = &now.chip[chip];
    const struct chip_state *read = &plain.chip[chip];
    if (memcmp(played->memory, read->memory, PLACES) != 0)
        fail("chip %zu: a cell is not as plainly read", chip);
    for (size_t word = 0; word < RECORD_LEN; word++)
        if (is_told(word) && played->record[word] != read->record[word])
            fail("chip %zu: %s is not as plainly read", chip, word_name(word));
}

/* A chip that the stream is not for keeps all but its phase. */
static void expect_kept(size_t chip, const struct chip_state *kept)
{
    struct chip_state *played = &now.chip[chip];
    memcpy(&played->record[W_PHASE], &kept->record[W_PHASE], 2 * sizeof played->record[0]);
    if (!equal_chips(played, kept))
        fail("chip %zu is changed by a list for another chip", chip);
}

/* Every byte is acknowledged, and every command taken: a byte in phase 4 or 5 with RS 0. */
static uint64_t good_answer(size_t chip, uint16_t event)
{
    uint64_t phase = bus_word(chip, W_PHASE);
    if (event >= 256)
        return NOTHING;
    return (phase == 4 || phase == 5) && bus_word(chip, W_PHASE_RS) == 0 ? COMMAND_TAKEN : ACK;
}

/* ---- Playing ----------------------------------------------------------------------------- */

static void play(size_t chip)
{
    static struct bus_state start;
    const struct stream *stream = &streams[chip];
    bus_save(&start);
    for (uint64_t i = 0; i < stream->length; i++) {
        uint64_t right = good_answer(chip, stream->events[i]);
        uint64_t answer = compare_bus(stream->events[i], odd_pins[below(ODD_PINS)]);
        if (answer != right)
            fail("event %llu of the compiler's gets the answer %llu", (unsigned long long)i,
                 (unsigned long long)answer);
    }
    bus_save(&now);
    if (now.count != start.count + stream->length)
        fail("the count does not rise by the length");
    expect_plain(chip);
    for (size_t c = 0; c < CHIPS; c++)
        if (c != chip)
            expect_kept(c, &start.chip[c]);
}

/* Four lists for the bus as it is, played from the first chip on or from another one. */
static void play_four(bool full_count)
{
    uint64_t length = 0;
    bus_save(&before);
    plain = before;
    for (size_t c = 0; c < CHIPS; c++) {
        compile(c);
        read_plainly(c);
        length += streams[c].length;
    }
    if (full_count)
        bus_count(UINT64_MAX - length);
    size_t first = (size_t)below(CHIPS);
    for (size_t i = 0; i < CHIPS; i++)
        play((first + i) % CHIPS);
    expect_true_pixels();
    if (full_count)
        expect_bus(START, 0, COUNT_FULL);
}

static void try_lists(unsigned standing, uint64_t most_lines, bool full_count)
{
    bus_lend_usual();
    random_true_bus(standing);
    for (size_t c = 0; c < CHIPS; c++)
        random_list(&texts[c], below(most_lines + 1));
    play_four(full_count);
}

/* A line of each kind for each chip from every page. */
static void try_pages(unsigned standing)
{
    uint64_t words[CHIPS][MOST_WORDS];
    for (uint64_t page = 0; page <= LAST_PAGE; page++) {
        bus_lend_usual();
        random_records(words, standing);
        for (size_t c = 0; c < CHIPS; c++) {
            words[c][W_H] = (page + c) % (LAST_PAGE + 1);
            clear_text(&texts[c]);
            if ((page + c) % 2 == 0)
                add_random_fill(&texts[c]);
            add_random_set(&texts[c]);
        }
        set_records(words);
        bus_true_pixels();
        play_four(page % 2 == 0);
    }
}

void test_plays(void)
{
    theme("plays");
    for (unsigned standing = 0; standing < STANDINGS; standing++) {
        if (!quick)
            try_pages(standing);
        try_lists(standing, quick ? 2 : MOST_LINES, standing % 2 == 0);
    }
}
