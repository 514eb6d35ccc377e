/* How fast the library's calls are against the plain C model of tests/model, and its steps and runs against the
 * limit besides, in one run.
 *
 * A round times the sides on the same input, turn and turn about, by the processor's own time. Before
 * a side is timed its buffers are cleared or lit up anew, so that they are in the cache; what that
 * takes is not timed. After it the sides must stand alike. */
#include "lists.h"
#include "records.h"
#include "samples.h"
#include "sides.h"
#include "streams.h"
#include "work.h"

#include <stdbool.h>
#include <stdio.h>
#include <stdlib.h>
#include <time.h>

enum { MOST_SIDES = 3, ROUNDS = 15, COLUMNS = 101, ROWS = 67, LIST_LINES = 400, WIRE_EVENTS = 8000 };

static struct text text;
static struct lines lines;

/* ---- What is timed ----------------------------------------------------------------------- */

/* Each does its work once on one side, and gives how many events, pixels or samples that was. What is done with
 * one chip stands in work.h. */

#define CHIP(n) \
    side->on_bus[n].record, WORDS, side->on_bus[n].memory, PLACES, side->on_bus[n].writers, PLACES

/* A sensor reading is for each chip in turn. */
static uint64_t bus_step_all(struct side *side)
{
    for (size_t i = 0; i < stream.length; i++)
        side->sum += side->calls->bus_step(CHIP(0), CHIP(1), CHIP(2), CHIP(3), &side->count,
                                           stream.events[i], i % CHIPS);
    return stream.length;
}

/* Each by a weight of its own, so that counts that are exchanged make another sum. */
static void add_counts(struct side *side, const uint64_t *n)
{
    side->sum += n[0] + 3 * n[1] + 5 * n[2] + 7 * n[3];
}

static uint64_t count_all(struct side *side)
{
    uint64_t n[VALUES];
    side->sum += side->calls->counts(side->memory, PLACES, &n[0], &n[1], &n[2], &n[3]);
    add_counts(side, n);
    return ROWS * COLUMNS;
}

static uint64_t refresh(struct side *side)
{
    uint64_t n[VALUES];
    side->calls->refresh(side->record, side->memory, n);
    add_counts(side, n);
    return 1;
}

static uint64_t look_at_all(struct side *side)
{
    for (uint64_t row = 0; row < ROWS; row++)
        for (uint64_t column = 0; column < COLUMNS; column++)
            side->sum += side->calls->glass(side->record, WORDS, side->memory, PLACES, row, column);
    return ROWS * COLUMNS;
}

static uint64_t pulse_rows(struct side *side)
{
    for (uint64_t row = 0; row < ROWS; row++) {
        side->sum += side->calls->pulse_row(side->record, WORDS, side->memory, PLACES, row,
                                            side->row, ROW_BYTES);
        side->sum += side->row[4 * row + 3];
    }
    return ROWS * COLUMNS;
}

static uint64_t compile_all(struct side *side)
{
    uint64_t length, clocks, line;
    side->sum += side->calls->compile(side->record, WORDS, text.bytes, text.length,
                                      side->out, MOST_OUT, &length, &clocks, &line);
    side->sum += length + clocks + line;
    return length;
}

static uint64_t read_wires(struct side *side)
{
    uint64_t consumed, written;
    side->sum += side->calls->wires(side->wires, WIRE_WORDS, lines.samples, lines.length,
                                    side->out, MOST_OUT, &consumed, &written);
    side->sum += consumed + 3 * written;
    return consumed;
}

/* ---- Drawing lists ----------------------------------------------------------------------- */

static void sets_list(void)
{
    clear_text(&text);
    for (int i = 0; i < LIST_LINES; i++)
        add_random_set(&text);
}

static void fills_list(unsigned v)
{
    clear_text(&text);
    add_set(&text, W_V, v);
    for (int i = 0; i < LIST_LINES; i++)
        add_random_fill(&text);
}

static void puts_list(void)
{
    clear_text(&text);
    for (int i = 0; i < LIST_LINES; i++)
        add_put(&text, (unsigned)below(COLUMNS), (unsigned)below(16), (unsigned)below(256));
}

static void mixed_list(void)
{
    random_list(&text, LIST_LINES);
}

/* ---- Rounds ------------------------------------------------------------------------------ */

static double seconds(void)
{
    struct timespec now;
    clock_gettime(CLOCK_THREAD_CPUTIME_ID, &now);
    return (double)now.tv_sec + 1e-9 * (double)now.tv_nsec;
}

/* How much a side does in a second. */
static double speed(struct side *side, uint64_t (*work)(struct side *), int times)
{
    uint64_t done = 0;
    double from = seconds();
    for (int i = 0; i < times; i++)
        done += work(side);
    return (double)done / (seconds() - from);
}

static int by_size(const void *a, const void *b)
{
    double x = *(const double *)a;
    double y = *(const double *)b;
    return (x > y) - (x < y);
}

static double median(double *of)
{
    qsort(of, ROUNDS, sizeof *of, by_size);
    return of[ROUNDS / 2];
}

static void clear_both(void)
{
    clear(&library);
    clear(&model);
}

static void clear_three(void)
{
    clear_both();
    clear(&limit);
}

static void clear_uncounted(void)
{
    clear(&library);
    clear(&uncounted);
}

/* The library and those that it is compared with. */
struct sides {
    int count;
    struct side *all[MOST_SIDES];
};

struct line {
    const char *name, *unit;
    uint64_t (*work)(struct side *);
    int times;
    void (*prepare)(void);
};

/* Another side is the first one at each round. */
static void time_round(const struct sides *sides, const struct line *line, int round,
                       double speeds[][ROUNDS])
{
    line->prepare();
    for (int i = 0; i < sides->count; i++) {
        int s = (round + i) % sides->count;
        speeds[s][round] = speed(sides->all[s], line->work, line->times);
    }
    for (int s = 1; s < sides->count; s++)
        must_agree(sides->all[s], line->name);
}

/* The rounds' ratios, sorted. Gives the middle one. */
static double ratios(const double *ours, const double *theirs, double *ratio)
{
    for (int i = 0; i < ROUNDS; i++)
        ratio[i] = ours[i] / theirs[i];
    return median(ratio);
}

/* The middle ones of the rounds. */
struct speeds {
    double ours, theirs;
};

static struct speeds compare_sides(const struct sides *sides, const struct line *line)
{
    double of[MOST_SIDES][ROUNDS], ratio[ROUNDS], limit_ratio[ROUNDS];
    for (int i = 0; i < ROUNDS; i++)
        time_round(sides, line, i, of);
    double middle = ratios(of[0], of[1], ratio);
    double limit_middle = sides->count == MOST_SIDES ? ratios(of[0], of[2], limit_ratio) : 0;
    struct speeds speeds = { median(of[0]), median(of[1]) };
    printf("%-26s %6.2f %6.2f %6.2f   %7.1f %7.1f  M %s/s", line->name, ratio[0], middle,
           ratio[ROUNDS - 1], 1e-6 * speeds.ours, 1e-6 * speeds.theirs, line->unit);
    if (sides->count == MOST_SIDES)
        printf("  %7.2f", limit_middle);
    printf("\n");
    fflush(stdout);
    return speeds;
}

static void compare(const char *name, const char *unit, uint64_t (*work)(struct side *), int times,
                    void (*prepare)(void))
{
    static const struct sides both = { 2, { &library, &model } };
    compare_sides(&both, &(struct line) { name, unit, work, times, prepare });
}

static struct speeds compare_three(const char *name, uint64_t (*work)(struct side *), int times)
{
    static const struct sides three = { 3, { &library, &model, &limit } };
    return compare_sides(&three, &(struct line) { name, "events", work, times, clear_three });
}

static struct speeds compare_uncounted(const char *name, uint64_t (*work)(struct side *), int times)
{
    static const struct sides both = { 2, { &library, &uncounted } };
    return compare_sides(&both, &(struct line) { name, "events", work, times, clear_uncounted });
}

/* What a display byte takes, in nanoseconds. */
struct costs {
    double library, model, uncounted;
};

/* Of the stream of whole banks, with the byte's share of what else is in its message. */
static double of_a_display_byte(double speed)
{
    return 1e9 / speed * (double)stream.length / (double)(COLUMNS * stream.messages);
}

/* Gives the speeds of the run over the whole stream. */
static struct speeds compare_stream(const struct chip_stream *with)
{
    with->fill(&stream);
    compare_three(with->step, step_all, 4);
    struct speeds speeds = compare_three(with->run, run_all, 16);
    compare_three(with->messages, run_messages, 16);
    return speeds;
}

/* Whole banks are almost all display bytes. The library and the model mend the counts of pixels at each, so
 * that their ratio does not show what that costs; in the line without counts the model never mends them. */
static struct costs compare_banks(void)
{
    struct speeds kept = compare_stream(&chip_streams[0]);
    struct speeds not_kept = compare_uncounted("run, banks, no counts kept", run_all, 16);
    return (struct costs) { of_a_display_byte(kept.ours), of_a_display_byte(kept.theirs),
                            of_a_display_byte(not_kept.theirs) };
}

static void compare_bus(void)
{
    bus_stream(&stream);
    compare("bus step, mixed", "events", bus_step_all, 2, clear_both);
}

/* The counting start, which goes over the memory; and a dashboard's refresh, for which the library has the
 * counts in the record, against counting afresh in plain C. */
static void compare_counts(void)
{
    compare("counts, a whole memory", "pixels", count_all, 100, light_up);
    compare("refresh, kept / afresh", "refreshes", refresh, 1000, light_up);
}

static void compare_compilers(void)
{
    fills_list(0);
    compare("compile, fills, V 0", "events", compile_all, 50, clear_both);
    fills_list(1);
    compare("compile, fills, V 1", "events", compile_all, 50, clear_both);
    puts_list();
    compare("compile, puts", "events", compile_all, 100, clear_both);
    sets_list();
    compare("compile, sets", "events", compile_all, 100, clear_both);
    mixed_list();
    compare("compile, mixed", "events", compile_all, 50, clear_both);
}

/* With every change of a line a sample of its own, which is the most work that samples can be; and as a
 * probe gives them that is faster than the bus. */
static void compare_wires(void)
{
    mixed_stream(&stream);
    sample_stream(&lines, &stream, WIRE_EVENTS, 1);
    compare("wires, changes alone", "samples", read_wires, 16, clear_both);
    sample_stream(&lines, &stream, WIRE_EVENTS, 8);
    compare("wires, 8 samples a change", "samples", read_wires, 4, clear_both);
}

int main(void)
{
    printf("library speed / model speed, %d rounds; buffers cleared or lit up before each\n", ROUNDS);
    printf("last column: library speed / limit speed, median\n");
    printf("%-26s %6s %6s %6s   %7s %7s  %10s  %7s\n", "", "least", "median", "most", "library", "model", "",
           "/ limit");
    struct costs costs = compare_banks();
    for (int i = 1; i < CHIP_STREAMS; i++)
        compare_stream(&chip_streams[i]);
    compare_bus();
    compare_counts();
    compare("glass, every pixel", "pixels", look_at_all, 40, light_up);
    compare("pulses, every row", "pixels", pulse_rows, 40, light_up);
    compare_compilers();
    compare_wires();
    printf("a display byte of a whole bank takes the library %.1f ns, the model %.1f ns, and the model %.1f ns "
           "without mending the counts of pixels\n", costs.library, costs.model, costs.uncounted);
    return 0;
}
