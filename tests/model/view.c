/* view [CAPTURE]: the glass after a capture, as a portable pixmap in its text form. */
#include "capture.h"
#include "glass.h"
#include "program.h"

#include <inttypes.h>

enum { DARK = 256, UNDRIVEN = 257, LEVEL = 512 };

/* The higher the level, the darker the grey. */
static void print_pixel(uint64_t shown)
{
    if (shown == DARK) {
        printf("0 0 96\n");
        return;
    }
    if (shown == UNDRIVEN) {
        printf("96 64 0\n");
        return;
    }
    unsigned grey = 255 * (64 - (unsigned)(shown - LEVEL)) / 64;
    printf("%u %u %u\n", grey, grey, grey);
}

static void print_glass(const struct played *played)
{
    printf("P3\n%d %d\n255\n", COLUMNS, ROWS);
    for (unsigned row = 0; row < ROWS; row++)
        for (unsigned column = 0; column < COLUMNS; column++)
            print_pixel(model_glass(played->record, WORDS, played->memory, PLACES, row, column));
}

int main(int argc, char **argv)
{
    static struct played played;
    check_words(argc, argv, "view", 1, 2, "view [CAPTURE]");
    FILE *file = open_input("view", argc == 2 ? argv[1] : NULL);
    uint64_t bad_line = play_capture(file, &played);
    check_input("view", file);
    if (bad_line != 0)
        printf("refused\t%" PRIu64 "\n", bad_line);
    else
        print_glass(&played);
    return 0;
}
