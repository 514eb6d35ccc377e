/* draw PINS [LIST]: the capture that plays a drawing list on a chip after reset. */
#include "compile.h"
#include "model.h"
#include "program.h"
#include "words.h"

#include <inttypes.h>
#include <stdlib.h>

#define USAGE "draw PINS [LIST]"

enum { MOST_TEXT = 1 << 20, TOO_SHORT = 10 };

/* One byte more than a list may have is read, to know whether there is one. */
static size_t read_text(FILE *file, uint8_t *text)
{
    size_t length = fread(text, 1, MOST_TEXT + 1, file);
    check_input("draw", file);
    if (length > MOST_TEXT)
        give_up("draw", "%s: longer than %d bytes", name_of(file), MOST_TEXT);
    return length;
}

static void print_capture(uint64_t pins, const uint16_t *events, uint64_t length)
{
    printf("pins\t%" PRIu64 "\n", pins);
    for (uint64_t i = 0; i < length; i++)
        printf("%u\n", events[i]);
}

static const char *rule_of(uint64_t refusal)
{
    switch (refusal) {
    case 6:
        return "no put, fill or set, a field too many or too few, an unknown register, a number with"
               " a leading zero or not of 1 to 3 digits, or no newline at the end";
    case 7:
        return "a column above 100, a bank above 16, ends the wrong way round, a byte above 255, a byte"
               " above 63 where bank 16 is touched, or a value wider than its field";
    case 8:
        return "a register whose row of the instruction table can't be read";
    default:
        return "more than 4096 lines";
    }
}

/* The numbers on standard output, and after them a sentence on standard error. */
static void print_refusal(uint64_t refusal, uint64_t line, const char *name)
{
    printf("refused\t%" PRIu64 "\t%" PRIu64 "\n", refusal, line);
    fflush(stdout);
    fprintf(stderr, "draw: %s", name);
    if (line != 0)
        fprintf(stderr, ", line %" PRIu64, line);
    fprintf(stderr, ": refused by %" PRIu64 ": %s\n", refusal, rule_of(refusal));
}

int main(int argc, char **argv)
{
    static uint8_t text[MOST_TEXT + 1];
    uint64_t record[WORDS];
    uint64_t length, clocks, line;

    check_words(argc, argv, "draw", 2, 3, USAGE);
    uint64_t pins = pins_of("draw", argv[1], USAGE);
    FILE *file = open_input("draw", argc == 3 ? argv[2] : NULL);
    size_t text_length = read_text(file, text);
    model_reset(record, WORDS, pins);

    /* With no room for the events the answer is how much there has to be. */
    uint64_t refusal = model_compile(record, WORDS, text, text_length, NULL, 0,
                                     &length, &clocks, &line);
    if (refusal != 0 && refusal != TOO_SHORT) {
        print_refusal(refusal, line, name_of(file));
        return 0;
    }
    uint16_t *events = calloc(length + 1, sizeof *events);
    if (events == NULL)
        give_up("draw", "no memory for %" PRIu64 " events", length);
    model_compile(record, WORDS, text, text_length, events, length, &length, &clocks, &line);
    print_capture(pins, events, length);
    free(events);
    return 0;
}
