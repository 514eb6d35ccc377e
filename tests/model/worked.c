/* Prints the worked cases: what each event answers, and what a run over all of them leaves.
 *
 * Every case starts from the reset record with both memories 0, and with a counting start:
 *
 *   case NAME
 *   answers A1 A2 ...                one for each event, up to the first refused one
 *   done N refusal R unknown U out-of-range O
 *                                    of a run over the whole list on a fresh chip, R 0 if none
 *   record W0 W1 ... W37 COUNT       after that run, the event count behind the record
 *   cell COLUMN BANK BYTE EVENT      one for each written place, by bank, then column
 *   pulses ROW 5 P0 P1 P2 P3         one for each of the glass's rows 8 to 11 that is lit in column 5 */
#include "example.h"
#include "model.h"
#include "pixels.h"
#include "pulses.h"

#include <stdio.h>
#include <stdlib.h>
#include <string.h>

enum { WORDS = 38, PIXELS_0 = 34, COLUMNS = 101, BANKS = 17, PLACES = COLUMNS * BANKS, MOST_EVENTS = 256 };

enum { START = 256, STOP = 257 };

struct chip {
    uint64_t record[WORDS];
    uint8_t memory[PLACES];
    uint64_t writers[PLACES];
    uint64_t count;
};

struct list {
    uint16_t events[MOST_EVENTS];
    size_t length;
};

/* S is START, P is STOP, two digits are a byte in hex, three digits are an event in decimal. */
struct worked {
    const char *name;
    uint64_t pins;
    const char *events;
};

static const struct worked cases[] = {
    { "put-5-2-167", 0, "S 78 80 01 80 85 80 42 40 A7 P" },
    { "x-e4", 0, "S 78 80 01 80 E4 P" },
    { "x-e5", 0, "S 78 80 01 80 85 80 E5 P" },
    { "counter-v0-100-3", 0, "S 78 80 01 80 E4 80 43 40 11 P" },
    { "counter-v1-7-16", 0, "S 78 80 01 80 16 80 87 80 50 40 22 P" },
    { "counter-v0-100-16", 0, "S 78 80 01 80 E4 80 50 40 15 P" },
    { "counter-v1-100-16", 0, "S 78 80 01 80 16 80 E4 80 50 40 15 P" },
    { "bank-16-ff", 0, "S 78 80 50 40 FF P" },
    { "bank-16-swapped", 0, "S 78 80 1C 80 50 40 03 C0 P" },
    { "mirror-x", 0, "S 78 80 09 80 0C 80 01 80 85 40 A7 A8 P" },
    { "sensor", 0, "S 78 80 10 80 0A 80 21 P 600 S 79 258 259 259 P" },
    { "sensor-in-power-down", 0, "S 78 80 0A 80 21 P 600 S 79 259 P" },
    { "read-rs-1", 0, "S 78 40 55 S 79 258 259 P" },
    { "other-address", 0, "S 7A 80 01 P" },
    { "address-pins-1", 1, "S 7A 80 85 P" },
    { "reset-keeps-memory", 0, "S 78 40 A7 260 00 P" },
    { "refused-event", 0, "S 78 40 11 261 22 P" },
    { "endless-commands", 0, "S 78 00 09 06 01 85 P" },
    { "single-data-bytes", 0, "S 78 C0 11 C0 22 80 01 40 33 P" },
    { "byte-while-reading", 0, "S 79 33 258 44 P" },
    { "unknown-commands", 0, "S 78 80 02 80 20 80 0D 80 51 80 0C 80 FF 80 01 P" },
    { "taken-unknown-out-of-range", 0,
      "S 78 80 E5 80 02 80 00 80 E4 00 E4 51 43 0D 01 S 78 40 E5 P" },
    { "grey-levels", 0, "S 78 80 0B 80 41 80 94 80 43 80 BF P" },
    { "row-block-swapping", 0, "S 78 80 0C 80 58 80 00 80 01 P" },
    { "pulses-17-30-63", 0,
      "S 78 00 10 09 06 01 0C 04 01 0B 41 91 42 9E 43 BF 01 85 42 S 78 40 A7 P" },
};

static void append(struct list *list, unsigned long event)
{
    if (list->length == MOST_EVENTS) {
        fprintf(stderr, "worked: a case has more than %d events\n", MOST_EVENTS);
        exit(1);
    }
    list->events[list->length++] = (uint16_t)event;
}

static unsigned long event_of(const char *word, size_t length)
{
    if (length == 1)
        return *word == 'S' ? START : STOP;
    return strtoul(word, NULL, length == 2 ? 16 : 10);
}

static struct list list_of(const char *text)
{
    struct list list = { .length = 0 };
    while (*text != '\0') {
        size_t length = strcspn(text, " ");
        append(&list, event_of(text, length));
        text += length;
        text += strspn(text, " ");
    }
    return list;
}

static struct list example_list(void)
{
    struct list list = { .length = 0 };
    append(&list, START);
    for (size_t i = 0; i < sizeof example_steps / sizeof example_steps[0]; i++) {
        const struct example_step *step = &example_steps[i];
        if (step->first == SECOND_TRANSMISSION) {
            append(&list, STOP);
            append(&list, START);
        }
        for (int n = step->first; n <= step->last; n++)
            append(&list, strtoul(step->byte, NULL, 2));
    }
    append(&list, STOP);
    return list;
}

static void start(struct chip *chip, uint64_t pins)
{
    uint64_t *pixels = chip->record + PIXELS_0;
    memset(chip, 0, sizeof *chip);
    if (model_reset(chip->record, WORDS, pins) != 0) {
        fprintf(stderr, "worked: no chip has these pins\n");
        exit(1);
    }
    model_counts(chip->memory, PLACES, &pixels[0], &pixels[1], &pixels[2], &pixels[3]);
}

static void print_answers(const struct list *list, uint64_t pins)
{
    struct chip chip;
    start(&chip, pins);
    printf("answers");
    for (size_t i = 0; i < list->length; i++) {
        uint64_t answer = model_step(chip.record, WORDS, chip.memory, PLACES, chip.writers, PLACES,
                                     &chip.count, list->events[i]);
        printf(" %llu", (unsigned long long)answer);
        if (answer < 256)
            break;
    }
    printf("\n");
}

static void print_record(const struct chip *chip)
{
    printf("record");
    for (int w = 0; w < WORDS; w++)
        printf(" %llu", (unsigned long long)chip->record[w]);
    printf(" %llu\n", (unsigned long long)chip->count);
}

static void print_cells(const struct chip *chip)
{
    for (int place = 0; place < PLACES; place++)
        if (chip->writers[place] != 0)
            printf("cell %d %d %d %llu\n", place % COLUMNS, place / COLUMNS, chip->memory[place],
                   (unsigned long long)chip->writers[place]);
}

static void print_pulses(const struct chip *chip)
{
    for (uint64_t row = 8; row <= 11; row++) {
        uint64_t word = model_pulses(chip->record, WORDS, chip->memory, PLACES, row, 5);
        if (word >> 32 == 0)
            continue;
        printf("pulses %llu 5", (unsigned long long)row);
        for (int frame = 0; frame < 4; frame++)
            printf(" %llu", (unsigned long long)(word >> 8 * frame & 255));
        printf("\n");
    }
}

static void print_case(const char *name, uint64_t pins, const struct list *list)
{
    struct chip chip;
    uint64_t done, unknown, out_of_range;
    uint64_t refusal;

    printf("case %s\n", name);
    print_answers(list, pins);
    start(&chip, pins);
    refusal = model_run(chip.record, WORDS, chip.memory, PLACES, chip.writers, PLACES,
                        &chip.count, list->events, list->length, &done, &unknown, &out_of_range);
    printf("done %llu refusal %llu unknown %llu out-of-range %llu\n", (unsigned long long)done,
           (unsigned long long)refusal, (unsigned long long)unknown,
           (unsigned long long)out_of_range);
    print_record(&chip);
    print_cells(&chip);
    print_pulses(&chip);
}

int main(void)
{
    struct list list = example_list();
    print_case("example-13.1", 0, &list);
    for (size_t i = 0; i < sizeof cases / sizeof cases[0]; i++) {
        list = list_of(cases[i].events);
        print_case(cases[i].name, cases[i].pins, &list);
    }
    return ferror(stdout) || fclose(stdout) != 0;
}
