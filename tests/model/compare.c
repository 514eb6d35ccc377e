/* compare FIRST SECOND: the cells and the registers that differ after two captures. */
#include "capture.h"
#include "names.h"
#include "program.h"

#include <inttypes.h>
#include <stdbool.h>
#include <string.h>

#define USAGE "compare FIRST SECOND"

static bool cells_differ(const struct played *first, const struct played *second, unsigned place)
{
    return first->memory[place] != second->memory[place]
        || first->writers[place] != second->writers[place];
}

static void print_cells(const struct played *first, const struct played *second)
{
    for (unsigned bank = 0; bank < BANKS; bank++)
        for (unsigned column = 0; column < COLUMNS; column++) {
            unsigned place = COLUMNS * bank + column;
            if (cells_differ(first, second, place))
                printf("%u\t%u\t%u\t%u\t%" PRIu64 "\t%" PRIu64 "\n", column, bank,
                       first->memory[place], second->memory[place],
                       first->writers[place], second->writers[place]);
        }
}

static void print_registers(const struct played *first, const struct played *second)
{
    for (int word = H; word <= OC; word++)
        if (first->record[word] != second->record[word])
            printf("%s\t%" PRIu64 "\t%" PRIu64 "\n", register_names[word],
                   first->record[word], second->record[word]);
}

/* Gives whether the capture is good; of a bad one the refusal is printed, with the file's number. */
static bool play(FILE *file, unsigned number, struct played *played)
{
    uint64_t bad_line = play_capture(file, played);
    check_input("compare", file);
    if (bad_line != 0)
        printf("refused\t%u\t%" PRIu64 "\n", number, bad_line);
    return bad_line == 0;
}

int main(int argc, char **argv)
{
    static struct played first, second;
    check_words(argc, argv, "compare", 3, 3, USAGE);
    if (strcmp(argv[1], "-") == 0 && strcmp(argv[2], "-") == 0)
        wrong_call("compare", "only one of the two can be standard input", USAGE);
    FILE *first_file = open_input("compare", argv[1]);
    FILE *second_file = open_input("compare", argv[2]);
    if (!play(first_file, 1, &first) || !play(second_file, 2, &second))
        return 0;
    printf("column\tbank\tfirst byte\tsecond byte\tfirst event\tsecond event\n");
    print_cells(&first, &second);
    print_registers(&first, &second);
    return 0;
}
