/* A desk with four windows and a glass at each: four chips on one bus. Every chip hears every event and
 * knows by its pins which are for it; one count numbers the events of them all.
 *
 * Four drawing lists become bus events, one list for each chip, and are played one after the other.
 * Then it prints what the four glasses show, and which event wrote one cell of each.
 *
 * Build and run, from the project's root:
 *
 *   tools/build host && gcc -Iinclude examples/four_glasses.c target/staticlib/libhost.a -o target/four_glasses
 *   target/four_glasses
 */
#include "pcf8820.h"

#include <stdio.h>
#include <stdlib.h>
#include <string.h>

enum { WORDS = PCF8820_RECORD_WORDS, PLACES = PCF8820_PLACES, CHIPS = PCF8820_CHIPS, MOST_EVENTS = 1000 };

/* All that the four chips are made of. The host lends it to each call, with the count. */
static uint64_t record[CHIPS][WORDS];
static uint8_t memory[CHIPS][PLACES];
static uint64_t writers[CHIPS][PLACES];
static struct pcf8820_chip chips[CHIPS];
static uint64_t count;

/* How the pins of each chip are wired, in any order: no two chips of a bus may have the same. A chip is
 * addressed by its pins; its place in the array is the host's own matter. */
static const uint64_t pins[CHIPS] = { 3, 1, 0, 2 };

/* What is sent to each chip, and how long it is. */
static uint16_t events[CHIPS][MOST_EVENTS];
static uint64_t length[CHIPS];

/* Display on, and value 3 in full black. Then as many bars as the window's number. */
#define ON "set\tpd\t0\n" "set\tdof\t0\n" "set\td\t1\n" "set\tgs3\t63\n"
#define BAR_1 "fill\t1\t2\t0\t1\t255\n"
#define BAR_2 "fill\t4\t5\t0\t1\t255\n"
#define BAR_3 "fill\t7\t8\t0\t1\t255\n"
#define BAR_4 "fill\t10\t11\t0\t1\t255\n"

static const char *const drawings[CHIPS] = {
    ON BAR_1, ON BAR_1 BAR_2, ON BAR_1 BAR_2 BAR_3, ON BAR_1 BAR_2 BAR_3 BAR_4
};

/* Ends the program unless the call is done, or gives an answer, which is 256 or more. */
static uint64_t accepted(const char *call, uint64_t result)
{
    if (result == PCF8820_DONE || result >= PCF8820_ANSWER_NONE)
        return result;
    fprintf(stderr, "%s: refused by %llu\n", call, (unsigned long long)result);
    exit(1);
}

static void put_on_the_bus(void)
{
    for (int n = 0; n < CHIPS; n++) {
        chips[n] = (struct pcf8820_chip) { record[n], WORDS, memory[n], PLACES, writers[n], PLACES };
        accepted("reset", pcf8820_reset(record[n], WORDS, pins[n]));
    }
}

/* The events carry the address of the chip whose record the list is compiled for. The first event is
 * START, the second the address byte: the address in its seven high bits, and 0, to write. */
static void compile(int n)
{
    uint64_t clocks, line;
    uint64_t result = pcf8820_compile(record[n], WORDS, (const uint8_t *)drawings[n],
                                      strlen(drawings[n]), events[n], MOST_EVENTS, &length[n],
                                      &clocks, &line);
    if (line != 0)
        fprintf(stderr, "line %llu of the drawing for chip %d is bad\n", (unsigned long long)line, n);
    if (result == PCF8820_REFUSED_SHORT_OUTPUT)
        fprintf(stderr, "the drawing for chip %d needs %llu events\n", n, (unsigned long long)length[n]);
    accepted("compile", result);
    printf("chip %d: pins %llu, address %u, %llu events\n", n, (unsigned long long)pins[n],
           events[n][1] / 2u, (unsigned long long)length[n]);
}

/* The last argument is for sensor readings, of which there are none here. A byte for an address that no
 * chip has is not refused, but no chip acknowledges it, and nothing is drawn. */
static void play(int n)
{
    for (uint64_t i = 0; i < length[n]; i++) {
        uint64_t answer = accepted("bus", pcf8820_bus(chips, &count, events[n][i], 0));
        if (answer == PCF8820_ANSWER_NOT_ACKNOWLEDGED) {
            fprintf(stderr, "bus: no chip acknowledges byte %u, event %llu\n", events[n][i],
                    (unsigned long long)count);
            exit(1);
        }
    }
}

static char shown(int n, uint64_t row, uint64_t column)
{
    uint64_t pixel = accepted("glass",
                              pcf8820_glass(record[n], WORDS, memory[n], PLACES, row, column));
    if (pixel < PCF8820_GLASS_LEVEL)
        return '?';
    return pixel == PCF8820_GLASS_LEVEL ? '.' : '#';
}

/* The corners of the four glasses, side by side. */
static void print_corners(uint64_t rows, uint64_t columns)
{
    for (uint64_t row = 0; row < rows; row++)
        for (int n = 0; n < CHIPS; n++) {
            for (uint64_t column = 0; column < columns; column++)
                putchar(shown(n, row, column));
            printf(n < CHIPS - 1 ? "  " : "\n");
        }
}

/* The number is that of the event on the bus, not of the chip's own events. */
static void print_writer(int n, uint64_t row, uint64_t column)
{
    uint64_t place = accepted("place", pcf8820_place(record[n], WORDS, row, column))
                     - PCF8820_GLASS_PLACE;
    printf("chip %d, row %llu, column %llu: event %llu, byte %u\n", n, (unsigned long long)row,
           (unsigned long long)column, (unsigned long long)writers[n][place], memory[n][place]);
}

int main(void)
{
    put_on_the_bus();
    for (int n = 0; n < CHIPS; n++)
        compile(n);
    for (int n = 0; n < CHIPS; n++)
        play(n);
    printf("%llu events on the bus\n", (unsigned long long)count);
    print_corners(9, 13);
    for (int n = 0; n < CHIPS; n++)
        print_writer(n, 5, 2);
    return 0;
}
