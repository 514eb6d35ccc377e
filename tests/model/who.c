/* who ROW COLUMN [CAPTURE]: what a pixel of the glass shows after a capture, from which cell, and
 * the event that wrote it. */
#include "capture.h"
#include "glass.h"
#include "program.h"

#include <inttypes.h>
#include <string.h>

#define USAGE "who ROW COLUMN [CAPTURE]"

enum { DARK = 256, UNDRIVEN = 257, LEVEL = 512, PLACE = 512 };

/* A number as in lists and captures: 1 to 3 digits, and none begins with 0 but 0 itself. */
static unsigned number_of(const char *word, unsigned most, const char *fault)
{
    size_t digits = strspn(word, "0123456789");
    if (digits == 0 || digits > 3 || word[digits] != '\0' || (word[0] == '0' && digits > 1))
        wrong_call("who", fault, USAGE);
    unsigned number = 0;
    for (size_t i = 0; i < digits; i++)
        number = 10 * number + (unsigned)(word[i] - '0');
    if (number > most)
        wrong_call("who", fault, USAGE);
    return number;
}

static void print_shown(uint64_t shown)
{
    if (shown == DARK)
        printf("shows\tdark\n");
    else if (shown == UNDRIVEN)
        printf("shows\tundriven\n");
    else
        printf("shows\tlevel %" PRIu64 "\n", shown - LEVEL);
}

static void print_number(const char *name, uint64_t number)
{
    printf("%s\t%" PRIu64 "\n", name, number);
}

/* The cell is where the writer put it, so MX does not matter any more. */
static void print_pixel(const struct played *played, unsigned row, unsigned column)
{
    uint64_t ram_row = played->record[MY] ? ROWS - 1 - row : row;
    uint64_t place = model_place(played->record, WORDS, row, column) - PLACE;
    uint64_t event = played->writers[place];

    print_number("row", row);
    print_number("column", column);
    print_shown(model_glass(played->record, WORDS, played->memory, PLACES, row, column));
    print_number("ram row", ram_row);
    print_number("bank", place / COLUMNS);
    print_number("cell column", place % COLUMNS);
    print_number("place", place);
    print_number("byte", played->memory[place]);
    print_number("value", played->memory[place] >> 2 * (ram_row % ROWS_OF_A_BANK) & 3);
    print_number("event", event);
    print_number("line", event == 0 ? 0 : event + 1);
}

int main(int argc, char **argv)
{
    static struct played played;
    check_words(argc, argv, "who", 3, 4, USAGE);
    unsigned row = number_of(argv[1], ROWS - 1, "ROW is not a number from 0 to 66");
    unsigned column = number_of(argv[2], COLUMNS - 1, "COLUMN is not a number from 0 to 100");
    FILE *file = open_input("who", argc == 4 ? argv[3] : NULL);
    uint64_t bad_line = play_capture(file, &played);
    check_input("who", file);
    if (bad_line != 0)
        printf("refused\t%" PRIu64 "\n", bad_line);
    else
        print_pixel(&played, row, column);
    return 0;
}
