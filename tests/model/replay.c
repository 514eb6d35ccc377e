/* replay [CAPTURE]: lists the cells that a capture has written, and the event that did. */
#include "capture.h"
#include "program.h"

#include <inttypes.h>

static void print_cells(const struct played *played)
{
    printf("column\tbank\tbyte\tevent\n");
    for (unsigned bank = 0; bank < BANKS; bank++)
        for (unsigned column = 0; column < COLUMNS; column++) {
            unsigned place = COLUMNS * bank + column;
            if (played->writers[place] != 0)
                printf("%u\t%u\t%u\t%" PRIu64 "\n", column, bank, played->memory[place],
                       played->writers[place]);
        }
}

int main(int argc, char **argv)
{
    static struct played played;
    check_words(argc, argv, "replay", 1, 2, "replay [CAPTURE]");
    FILE *file = open_input("replay", argc == 2 ? argv[1] : NULL);
    uint64_t bad_line = play_capture(file, &played);
    check_input("replay", file);
    if (bad_line != 0)
        printf("refused\t%" PRIu64 "\n", bad_line);
    else
        print_cells(&played);
    return 0;
}
