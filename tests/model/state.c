/* state [CAPTURE]: the chip at the end of a capture, and how the bytes from the master were answered. */
#include "bus.h"
#include "capture.h"
#include "names.h"
#include "program.h"

#include <inttypes.h>

/* By phase and its RS. */
static const char *const phase_words[][2] = {
    [IDLE] = { "idle" },
    [ADDRESS] = { "address awaited" },
    [IGNORING] = { "ignoring" },
    [CONTROL] = { "control byte awaited" },
    [ONE_BYTE] = { "one command awaited", "one display byte awaited" },
    [ENDLESS] = { "endless commands", "endless display bytes" },
    [READING] = { "reading" },
    [READ_ENDED] = { "read ended" },
};

static uint64_t acknowledged, not_acknowledged;

/* A command byte is acknowledged whether it is taken or not. Other events than bytes are answered
 * with nothing, or with a byte. */
static void count_answer(const uint64_t *before, const struct played *after, unsigned event,
                         uint64_t answer)
{
    (void)before;
    (void)after;
    (void)event;
    acknowledged += answer == ACK || answer == TAKEN || answer == UNKNOWN || answer == OUT_OF_RANGE;
    not_acknowledged += answer == NACK;
}

static void print_number(const char *name, uint64_t number)
{
    printf("%s\t%" PRIu64 "\n", name, number);
}

static void print_state(const struct played *played)
{
    const uint64_t *record = played->record;
    for (int word = H; word <= OC; word++)
        print_number(register_names[word], record[word]);
    print_number("pins", record[SA]);
    print_number("status", record[TR]);
    print_number("last rs", record[LAST_RS]);
    printf("phase\t%s\n", phase_words[record[PHASE]][record[PHASE_RS]]);
    print_number("count", played->count);
    print_number("acknowledged", acknowledged);
    print_number("not acknowledged", not_acknowledged);
    print_number("pixels 0", record[PIXELS_0]);
    print_number("pixels 1", record[PIXELS_1]);
    print_number("pixels 2", record[PIXELS_2]);
    print_number("pixels 3", record[PIXELS_3]);
}

int main(int argc, char **argv)
{
    static struct played played;
    check_words(argc, argv, "state", 1, 2, "state [CAPTURE]");
    FILE *file = open_input("state", argc == 2 ? argv[1] : NULL);
    uint64_t bad_line = play_events(file, &played, count_answer);
    check_input("state", file);
    if (bad_line != 0)
        printf("refused\t%" PRIu64 "\n", bad_line);
    else
        print_state(&played);
    return 0;
}
