/* trace [CAPTURE]: each event of a capture as it is read, in words, and what the chip answers. */
#include "bus.h"
#include "capture.h"
#include "model.h"
#include "names.h"
#include "program.h"

#include <inttypes.h>

/* ---- Commands ---------------------------------------------------------------------------- */

enum { MOST_FIELDS = 3 };

/* A row has a name of its own, or fields: words of the record, each with its highest and its lowest
 * bit in the byte. A row without either is none. */
struct said {
    const char *name;
    struct {
        enum word word;
        unsigned high, low;
    } field[MOST_FIELDS];
    int fields;
};

/* By the number that model_row gives: the data sheet's order, and behind the last row none. */
static const struct said rows[] = {
    { .name = "nop" },
    { .name = "page return" },
    { .fields = 1, .field = { { H, 2, 0 } } },
    { .fields = 3, .field = { { DO, 3, 3 }, { PD, 2, 2 }, { V, 1, 1 } } },
    { .fields = 1, .field = { { Y, 4, 0 } } },
    { .fields = 1, .field = { { X, 6, 0 } } },
    { .fields = 2, .field = { { D, 1, 1 }, { E, 0, 0 } } },
    { .fields = 3, .field = { { MX, 2, 2 }, { MY, 1, 1 }, { PS, 0, 0 } } },
    { .fields = 1, .field = { { BS, 2, 0 } } },
    { .fields = 1, .field = { { BSH, 0, 0 } } },
    { .fields = 1, .field = { { DP, 2, 0 } } },
    { .fields = 2, .field = { { PRS, 1, 1 }, { HVE, 0, 0 } } },
    { .fields = 1, .field = { { S, 2, 0 } } },
    { .fields = 1, .field = { { TC, 2, 0 } } },
    { .fields = 1, .field = { { SM, 0, 0 } } },
    { .fields = 1, .field = { { VOP, 6, 0 } } },
    { .fields = 1, .field = { { GR, 1, 0 } } },
    { .fields = 1, .field = { { GS0, 5, 0 } } },
    { .fields = 2, .field = { { DOF, 1, 1 }, { DM, 0, 0 } } },
    { .fields = 2, .field = { { EC, 1, 1 }, { OC, 0, 0 } } },
    { .name = "row block swap" },
    { .fields = 0 },
};

/* The numbers are those that were sent, in range or not. The row of grey register 0 is the one of
 * the register that GR selects. */
static void print_command(const uint64_t *before, unsigned byte)
{
    const struct said *said = &rows[model_row((int)before[H], byte)];
    printf("command");
    if (said->name != NULL)
        printf(" %s", said->name);
    for (int i = 0; i < said->fields; i++) {
        unsigned word = said->field[i].word;
        unsigned low = said->field[i].low;
        unsigned bits = said->field[i].high - low + 1;
        if (word == GS0)
            word += before[GR];
        printf(" %s %u", register_names[word], byte >> low & ((1u << bits) - 1));
    }
}

/* ---- Other bytes ------------------------------------------------------------------------- */

static void print_address(unsigned byte)
{
    printf("address %u %s", byte >> 1, byte & 1 ? "read" : "write");
}

static void print_control(unsigned byte)
{
    static const char *const follows[] = {
        "endless commands", "endless display bytes", "one command", "one display byte"
    };
    printf("control %s", follows[byte >> 6]);
}

/* The cell that is written, and what stands in it then. */
static void print_display(const uint64_t *before, const struct played *after)
{
    uint64_t column = before[MX] ? COLUMNS - 1 - before[X] : before[X];
    uint64_t bank = before[Y];
    printf("display %" PRIu64 " %" PRIu64 " %u", column, bank,
           after->memory[COLUMNS * bank + column]);
}

static void print_byte(const uint64_t *before, const struct played *after, unsigned byte)
{
    switch (before[PHASE]) {
    case ADDRESS:
        print_address(byte);
        return;
    case CONTROL:
        print_control(byte);
        return;
    case ONE_BYTE:
    case ENDLESS:
        if (before[PHASE_RS])
            print_display(before, after);
        else
            print_command(before, byte);
        return;
    default:
        printf("ignored");
    }
}

/* ---- Lines ------------------------------------------------------------------------------- */

static void print_event(const uint64_t *before, const struct played *after, unsigned event)
{
    static const char *const words[] = { "start", "stop", "read", "last read", "reset" };
    if (event >= SENSOR)
        printf("sensor %u", event - SENSOR);
    else if (event >= START)
        printf("%s", words[event - START]);
    else
        print_byte(before, after, event);
}

static void print_answer(uint64_t answer)
{
    static const char *const words[] = {
        "-", "acknowledged", "not acknowledged", "taken", "unknown", "out of range"
    };
    if (answer >= BYTE_READ)
        printf("%" PRIu64, answer - BYTE_READ);
    else
        printf("%s", words[answer - NOTHING]);
}

static void print_line(const uint64_t *before, const struct played *after, unsigned event,
                       uint64_t answer)
{
    printf("%" PRIu64 "\t%u\t", after->count, event);
    print_event(before, after, event);
    printf("\t");
    print_answer(answer);
    printf("\n");
}

int main(int argc, char **argv)
{
    static struct played played;
    check_words(argc, argv, "trace", 1, 2, "trace [CAPTURE]");
    FILE *file = open_input("trace", argc == 2 ? argv[1] : NULL);
    setvbuf(stdout, NULL, _IOLBF, BUFSIZ);
    uint64_t bad_line = play_events(file, &played, print_line);
    check_input("trace", file);
    if (bad_line != 0)
        printf("refused\t%" PRIu64 "\n", bad_line);
    return 0;
}
