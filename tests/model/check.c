/* Checks the model itself, with no library: the marked cases of the papers, the answers to commands,
 * the counts of pixels, and that the events of a drawing list, played on the model's chip from any
 * state with true counts, do what the plain reading says. */
#include "check.h"

#include "compile.h"
#include "glass.h"
#include "lists.h"
#include "model.h"
#include "pixels.h"
#include "plain.h"
#include "pulses.h"
#include "records.h"

#include <stdio.h>
#include <stdlib.h>
#include <string.h>

enum { START = 256, STOP = 257, LEVEL = 512, MOST_EVENTS = 1 << 20 };

enum { NOTHING = 256, ACK = 257, TAKEN = 259, UNKNOWN = 260, OUT_OF_RANGE = 261 };

static const uint64_t LIT = (uint64_t)1 << 32;

static struct text text;
static uint16_t events[MOST_EVENTS];
static unsigned long long streams, pixels, commands;

void require(bool holds, const char *what)
{
    if (holds)
        return;
    fprintf(stderr, "model: %s does not hold; the list:\n%.*s", what, (int)text.length,
            (const char *)text.bytes);
    exit(1);
}

bool equal_chips(const struct chip *one, const struct chip *other)
{
    return memcmp(one->record, other->record, sizeof one->record) == 0
           && memcmp(one->memory, other->memory, sizeof one->memory) == 0
           && memcmp(one->writers, other->writers, sizeof one->writers) == 0
           && one->count == other->count;
}

bool has_counts(const uint64_t *record, const uint64_t *right)
{
    return memcmp(record + PIXELS_0, right, VALUES * sizeof *right) == 0;
}

/* ---- Marked streams ---------------------------------------------------------------------- */

/* A register is set before the list is compiled; S is START, P is STOP, two digits are a byte. */
struct marked {
    const char *list;
    unsigned word, value;
    const char *stream;
};

static const struct marked marked[] = {
    { "put\t5\t2\t167\n", PD, 1, "S 78 80 01 80 85 80 42 40 A7 P" },
    { "put\t5\t2\t167\n", MX, 1, "S 78 80 01 80 DF 80 42 40 A7 P" },
    { "put\t5\t2\t167\n", DO, 1, "S 78 80 01 80 85 80 42 40 E5 P" },
    { "put\t5\t2\t167\n", SA, 2, "S 7C 80 01 80 85 80 42 40 A7 P" },
    { "put\t0\t16\t63\n", DO, 1, "S 78 80 01 80 80 80 50 40 FC P" },
    { "", PD, 1, "" },
    { "fill\t5\t6\t2\t3\t1\n", V, 0,
      "S 78 80 01 80 85 80 42 40 01 01 P S 78 80 01 80 85 80 43 40 01 01 P" },
    { "fill\t5\t6\t2\t3\t1\n", V, 1,
      "S 78 80 01 80 85 80 42 40 01 01 P S 78 80 01 80 86 80 42 40 01 01 P" },
    { "fill\t5\t6\t2\t3\t1\n", MX, 1,
      "S 78 80 01 80 DE 80 42 40 01 01 P S 78 80 01 80 DE 80 43 40 01 01 P" },
    { "set\tv\t1\nfill\t5\t6\t2\t3\t1\n", MX, 1,
      "S 78 80 01 80 16 P S 78 80 01 80 DE 80 42 40 01 01 P S 78 80 01 80 DF 80 42 40 01 01 P" },
    { "set\tv\t1\n", PD, 1, "S 78 80 01 80 16 P" },
    { "set\tv\t1\nset\tpd\t0\n", PD, 1, "S 78 80 01 80 16 P S 78 80 01 80 12 P" },
    { "set\td\t1\n", H, 3, "S 78 80 01 80 09 80 06 80 01 P" },
    { "set\tvop\t91\n", PD, 1, "S 78 80 01 80 0A 80 DB 80 01 P" },
    { "set\tgs1\t20\n", PD, 1, "S 78 80 01 80 0B 80 41 80 94 80 01 P" },
    { "set\tdm\t0\n", DM, 1, "S 78 80 01 80 0C 80 06 80 01 P" },
    { "set\tmx\t1\nput\t5\t2\t167\n", PD, 1,
      "S 78 80 01 80 09 80 0C 80 01 P S 78 80 01 80 DF 80 42 40 A7 P" },
};

static size_t read_stream(const char *stream, uint16_t *expected, uint64_t *bytes)
{
    size_t length = 0;
    *bytes = 0;
    while (*stream != '\0') {
        size_t digits = strcspn(stream, " ");
        if (digits == 1) {
            expected[length++] = *stream == 'S' ? START : STOP;
        } else {
            expected[length++] = (uint16_t)strtoul(stream, NULL, 16);
            *bytes += 1;
        }
        stream += digits;
        stream += strspn(stream, " ");
    }
    return length;
}

static void check_marked_stream(const struct marked *this)
{
    uint64_t record[WORDS];
    uint16_t expected[100];
    uint64_t bytes, length, clocks, line;

    clear_text(&text);
    add_text(&text, "%s", this->list);
    model_reset(record, WORDS, 0);
    record[this->word] = this->value;
    size_t right = read_stream(this->stream, expected, &bytes);
    uint64_t result = model_compile(record, WORDS, text.bytes, text.length, events, MOST_EVENTS,
                                    &length, &clocks, &line);
    require(result == 0 && line == 0, "a marked list is accepted");
    require(length == right && clocks == 9 * bytes, "the length and the clocks of a marked stream");
    require(memcmp(events, expected, right * sizeof events[0]) == 0, "a marked stream");
    streams++;
}

static void check_marked_refusal(void)
{
    uint64_t record[WORDS];
    uint64_t length, clocks, line;
    clear_text(&text);
    add_text(&text, "put\t0\t16\t64\n");
    model_reset(record, WORDS, 0);
    require(model_compile(record, WORDS, text.bytes, text.length, events, MOST_EVENTS,
                          &length, &clocks, &line) == 7 && line == 1, "64 is refused in bank 16");
}

/* ---- Marked pixels ----------------------------------------------------------------------- */

static struct chip lit_chip(unsigned mode)
{
    struct chip chip = { .memory = { [2 * COLUMNS + 5] = 167 } };
    model_reset(chip.record, WORDS, 0);
    chip.record[PD] = 0;
    chip.record[DOF] = 0;
    chip.record[D] = mode >> 1;
    chip.record[E] = mode & 1;
    for (unsigned i = 0; i < 4; i++)
        chip.record[GS0 + i] = 10 + i;
    return chip;
}

static uint64_t shown(const struct chip *chip, uint64_t row, uint64_t column)
{
    pixels++;
    return model_glass(chip->record, WORDS, chip->memory, PLACES, row, column);
}

static uint64_t pulses_of(const struct chip *chip)
{
    return model_pulses(chip->record, WORDS, chip->memory, PLACES, 8, 5);
}

static void check_registers(unsigned mode, const unsigned *registers)
{
    struct chip chip = lit_chip(mode);
    for (uint64_t row = 8; row <= 11; row++) {
        require(shown(&chip, row, 5) == LEVEL + 10 + registers[row - 8], "a marked pixel");
        require(model_place(chip.record, WORDS, row, 5) == 512 + 2 * COLUMNS + 5, "its place");
    }
}

static void check_marked_pixels(void)
{
    check_registers(0, (const unsigned[]) { 0, 0, 0, 0 });
    check_registers(1, (const unsigned[]) { 3, 3, 3, 3 });
    check_registers(2, (const unsigned[]) { 3, 1, 2, 2 });
    check_registers(3, (const unsigned[]) { 0, 2, 1, 1 });

    struct chip chip = lit_chip(2);
    chip.record[MY] = 1;
    require(shown(&chip, 58, 5) == LEVEL + 10 + 3, "the marked pixel with MY");
    chip.record[PS] = 1;
    chip.record[DP] = 7;
    for (uint64_t row = 0; row <= 66; row++)
        require((shown(&chip, row, 0) >= LEVEL) == (row >= 3 && row <= 10), "the driven rows");
}

/* Document 02, W2: 63 is shown as 64, and nothing else moves. */
static void check_levels(void)
{
    struct chip chip = lit_chip(1);
    for (uint64_t held = 0; held < 64; held++) {
        chip.record[GS3] = held;
        require(shown(&chip, 8, 5) == LEVEL + (held < 63 ? held : 64), "a level");
    }
}

/* Document 02, W4: the pulses that it gives, frame 0 first. */
static void check_marked_pulses(uint64_t held, uint64_t p0, uint64_t p1, uint64_t p2, uint64_t p3)
{
    struct chip chip = lit_chip(1);
    chip.record[GS3] = held;
    require(pulses_of(&chip) == (LIT | p3 << 24 | p2 << 16 | p1 << 8 | p0), "marked pulses");
}

/* And a round adds up to the level. */
static void check_pulses(void)
{
    struct chip chip = lit_chip(1);
    check_marked_pulses(17, 4, 4, 4, 5);
    check_marked_pulses(30, 7, 8, 7, 8);
    check_marked_pulses(63, 16, 16, 16, 16);
    for (uint64_t held = 0; held < 64; held++) {
        chip.record[GS3] = held;
        uint64_t all = pulses_of(&chip);
        uint64_t sum = (all & 255) + (all >> 8 & 255) + (all >> 16 & 255) + (all >> 24 & 255);
        require(all >> 32 == 1 && LEVEL + sum == shown(&chip, 8, 5), "the sum of a round");
    }
}

/* ---- Answers to commands ----------------------------------------------------------------- */

/* Document 02, W5, with the rows of the data sheet: how many bytes of each page, 0 to 4, are taken
 * and how many are out of range; the others are unknown. Two are taken in every page, no operation
 * and page return. */
static const struct {
    unsigned taken, out_of_range;
} answered[] = {
    { 2 + 5 + 8 + 17 + 101, 3 + 15 + 27 },
    { 2 + 4 + 8 + 8 + 2 + 8, 0 },
    { 2 + 4 + 8 + 8 + 2 + 128, 0 },
    { 2 + 4 + 64, 0 },
    { 2 + 4 + 4 + 4, 0 },
};

static uint64_t answer_to(unsigned page, unsigned byte)
{
    static struct chip chip;
    model_reset(chip.record, WORDS, 0);
    chip.record[H] = page;
    chip.record[PHASE] = 5;
    commands++;
    return model_step(chip.record, WORDS, chip.memory, PLACES, chip.writers, PLACES,
                      &chip.count, (uint16_t)byte);
}

static void check_answers(unsigned page)
{
    unsigned taken = 0;
    unsigned unknown = 0;
    unsigned out_of_range = 0;
    for (unsigned byte = 0; byte < 256; byte++) {
        uint64_t answer = answer_to(page, byte);
        taken += answer == TAKEN;
        unknown += answer == UNKNOWN;
        out_of_range += answer == OUT_OF_RANGE;
    }
    require(taken == answered[page].taken, "how many commands of a page are taken");
    require(out_of_range == answered[page].out_of_range, "how many are out of range");
    require(taken + unknown + out_of_range == 256, "every other command is unknown");
}

static void check_commands(void)
{
    require(answer_to(0, 0x80 + 100) == TAKEN && answer_to(0, 0x80 + 101) == OUT_OF_RANGE, "X 100");
    require(answer_to(0, 0x40 + 16) == TAKEN && answer_to(0, 0x40 + 17) == OUT_OF_RANGE, "Y 16");
    require(answer_to(0, 0x08 + 4) == TAKEN && answer_to(0, 0x08 + 5) == OUT_OF_RANGE, "page 4");
    for (unsigned page = 0; page <= 4; page++) {
        check_answers(page);
        require(answer_to(page, 0) == TAKEN && answer_to(page, 1) == TAKEN, "rows of every page");
        require((answer_to(page, 0x58) == TAKEN) == (page == 4), "row block swapping");
    }
}

/* ---- Playing ----------------------------------------------------------------------------- */

static void count_afresh(struct chip *chip)
{
    uint64_t *n = chip->record + PIXELS_0;
    require(model_counts(chip->memory, PLACES, &n[0], &n[1], &n[2], &n[3]) == 0, "a counting start");
    require(n[0] + n[1] + n[2] + n[3] == PIXELS, "true counts add up to all pixels");
}

static struct chip random_chip(void)
{
    struct chip chip;
    random_record(chip.record);
    chip.count = random_count();
    for (size_t place = 0; place < PLACES; place++) {
        chip.memory[place] = (uint8_t)random64();
        chip.writers[place] = random64();
    }
    count_afresh(&chip);
    return chip;
}

/* The length of the stream of the present text. The output behind it must stay as it is. */
static uint64_t compile_text(const struct chip *chip)
{
    uint64_t length, clocks, line;
    uint64_t bytes = 0;
    memset(events, 0xC3, sizeof events);
    uint64_t result = model_compile(chip->record, WORDS, text.bytes, text.length,
                                    events, MOST_EVENTS, &length, &clocks, &line);
    require(result == 0 && line == 0 && length < MOST_EVENTS, "a random list is accepted");
    for (uint64_t i = 0; i < length; i++)
        bytes += events[i] < 256;
    require(clocks == 9 * bytes, "nine clocks for each byte");
    require(events[length] == 0xC3C3, "the output beyond the length is unchanged");
    return length;
}

static void check_end(const struct chip *start, const struct chip *end, uint64_t length)
{
    struct chip plain = *start;
    require(model_plain(plain.record, WORDS, plain.memory, PLACES, text.bytes, text.length) == 0,
            "the list has a plain reading");
    require(memcmp(plain.memory, end->memory, PLACES) == 0, "the cells of the plain reading");
    for (int w = 0; w <= OC; w++)
        require(w == H || w == X || w == Y || plain.record[w] == end->record[w],
                "a register of the plain reading");
    require(end->count == start->count + length, "the count");
    count_afresh(&plain);
    require(has_counts(end->record, plain.record + PIXELS_0), "the counts are true at the end");
}

/* A byte in phase 4 or 5 with RS 0 is a command. */
static uint64_t good_answer(const uint64_t *record, uint16_t event)
{
    bool content = record[PHASE] == 4 || record[PHASE] == 5;
    if (event >= 256)
        return NOTHING;
    return content && record[PHASE_RS] == 0 ? TAKEN : ACK;
}

static void play_text(const struct chip *start)
{
    struct chip stepped = *start;
    struct chip run = *start;
    uint64_t done, unknown, out_of_range;
    uint64_t length = compile_text(start);

    for (uint64_t i = 0; i < length; i++) {
        uint64_t right = good_answer(stepped.record, events[i]);
        require(model_step(stepped.record, WORDS, stepped.memory, PLACES, stepped.writers, PLACES,
                           &stepped.count, events[i]) == right,
                "every byte is acknowledged, and every command taken");
    }
    uint64_t refusal = model_run(run.record, WORDS, run.memory, PLACES, run.writers, PLACES,
                                 &run.count, events, length, &done, &unknown, &out_of_range);
    require(refusal == 0 && done == length, "the run takes every event");
    require(unknown == 0 && out_of_range == 0, "no command is counted as unknown or out of range");
    require(equal_chips(&run, &stepped), "the run ends like the steps");
    check_end(start, &run, length);
    streams++;
}

static void play_random(int times, uint64_t most_lines)
{
    for (int i = 0; i < times; i++) {
        struct chip chip = random_chip();
        random_list(&text, below(most_lines + 1));
        if (i % 8 == 0)
            chip.count = UINT64_MAX - compile_text(&chip);
        play_text(&chip);
    }
}

/* Every phase and page, with a line of each kind. */
static void play_starts(void)
{
    for (size_t p = 0; p < PHASES; p++)
        for (uint64_t page = 0; page <= LAST_PAGE; page++)
            for (size_t f = 0; f <= FIELDS; f++) {
                struct chip chip = random_chip();
                set_phase(chip.record, &bus_phases[p]);
                chip.record[H] = page;
                clear_text(&text);
                if (f == FIELDS)
                    add_random_fill(&text);
                else
                    add_set(&text, field_words[f],
                            (unsigned)below(word_limit(field_words[f]) + 1));
                play_text(&chip);
            }
}

int main(void)
{
    for (size_t i = 0; i < sizeof marked / sizeof marked[0]; i++)
        check_marked_stream(&marked[i]);
    check_marked_refusal();
    check_marked_pixels();
    check_levels();
    check_pulses();
    check_commands();
    unsigned long long counts = check_counts();
    play_starts();
    play_random(2000, 12);
    play_random(50, 200);
    printf("model: %llu streams, %llu pixels, %llu commands and %llu counts, as the papers have them\n",
           streams, pixels, commands, counts);
    return 0;
}
