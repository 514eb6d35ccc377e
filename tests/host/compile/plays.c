/* What a list is for: its events, played on the chip that it was compiled for, must do what the plain
 * reading says. By a run, and event by event, from any state with true counts of pixels. */
#include "compile_calls.h"
#include "harness.h"
#include "plain.h"
#include "records.h"
#include "themes.h"

#include <string.h>

static struct text text;

/* The chip before, what the plain reading makes of it, and what the run does. */
static struct state before, plain, played;

static bool counts(size_t word)
{
    return word <= W_OC && word != W_H && word != W_X && word != W_Y;
}

static void expect_plain(void)
{
    save(&played);
    for (size_t place = 0; place < PLACES; place++)
        if (played.memory[place] != plain.memory[place])
            fail("cell %zu: played %u, plainly read %u", place, played.memory[place],
                 plain.memory[place]);
    for (size_t word = 0; word < RECORD_LEN; word++)
        if (counts(word) && played.record[word] != plain.record[word])
            fail("register %s: played %llu, plainly read %llu", word_name(word),
                 (unsigned long long)played.record[word], (unsigned long long)plain.record[word]);
    expect_true_pixels();
}

static void read_plainly(void)
{
    plain = before;
    if (model_plain(plain.record, RECORD_LEN, plain.memory, PLACES, text.bytes, text.length) != 0)
        fail("the list has no plain reading");
}

static void play_by_run(const struct compiled *compiled)
{
    struct ran ran;
    if (compare_run(compiled->events, compiled->length, &ran) != 0 || ran.done != compiled->length)
        fail("the run refuses an event of the compiler's");
    if (ran.unknown != 0 || ran.out_of_range != 0)
        fail("the run counts %llu unknown commands of the compiler's and %llu out of range",
             (unsigned long long)ran.unknown, (unsigned long long)ran.out_of_range);
    expect_plain();
}

/* Every byte is acknowledged, and every command taken: a byte in phase 4 or 5 with RS 0. */
static uint64_t good_answer(uint16_t event)
{
    uint64_t phase = word_now(W_PHASE);
    if (event >= 256)
        return NOTHING;
    return (phase == 4 || phase == 5) && word_now(W_PHASE_RS) == 0 ? COMMAND_TAKEN : ACK;
}

static void play_by_steps(const struct compiled *compiled)
{
    for (size_t i = 0; i < compiled->length; i++) {
        uint64_t right = good_answer(compiled->events[i]);
        uint64_t answer = compare_step(compiled->events[i]);
        if (answer != right)
            fail("event %zu of the compiler's gets the answer %llu", i, (unsigned long long)answer);
    }
    expect_state("the run and the single steps", &played);
    expect_plain();
}

/* How the text is played: whether the count leaves just the room that is needed, and whether event by
 * event too. */
struct way {
    bool full_count, steps;
};

/* The text, from this record and random memories. Streams too long for the buffers are left out. */
static void play(const uint64_t *words, struct way way)
{
    struct compiled compiled;
    if (compare_list(words, &text, &compiled) != 0)
        fail("a good list is refused");
    if (compiled.length > MOST_EVENTS)
        return;
    lend_usual();
    set_record(words);
    set_true_pixels();
    if (way.full_count)
        set_count(UINT64_MAX - compiled.length);
    save(&before);
    read_plainly();
    play_by_run(&compiled);
    if (!way.steps)
        return;
    restore(&before);
    play_by_steps(&compiled);
}

static void try_random(int times, uint64_t most_lines)
{
    uint64_t words[MOST_WORDS];
    for (int i = 0; i < times; i++) {
        random_record(words);
        random_list(&text, below(most_lines + 1));
        play(words, (struct way) { .full_count = i % 4 == 0, .steps = i % 8 == 0 });
    }
}

/* A line of each kind from every phase and every page. */
static void try_starts(void)
{
    uint64_t words[MOST_WORDS];
    for (size_t p = 0; p < PHASES; p++)
        for (uint64_t page = 0; page <= LAST_PAGE; page++)
            for (int i = 0; i < 3; i++) {
                random_record(words);
                set_phase(words, &bus_phases[p]);
                words[W_H] = page;
                clear_text(&text);
                if (i == 0)
                    add_random_fill(&text);
                else if (i == 1)
                    add_random_set(&text);
                play(words, (struct way) { .steps = true });
            }
}

/* The whole glass with V, MX and DO in every mixture. */
static void try_whole_glass(void)
{
    uint64_t words[MOST_WORDS];
    for (unsigned mode = 0; mode < 8; mode++) {
        random_record(words);
        words[W_MX] = mode & 1;
        words[W_V] = mode >> 1 & 1;
        words[W_DO] = mode >> 2 & 1;
        clear_text(&text);
        add_fill(&text, 0, 100, 0, 16, 0x1D);
        add_fill(&text, 1, 99, 0, 15, 0xB1);
        play(words, (struct way) { .steps = true });
    }
}

void test_plays(void)
{
    theme("plays");
    try_starts();
    try_whole_glass();
    try_random(quick ? 300 : 6000, 12);
    try_random(quick ? 10 : 200, 200);
}
