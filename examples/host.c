/* A small host: it draws, plays the drawing on a chip, and asks what the glass shows, who wrote it,
 * how many pixels have each value, and how the four frames build a level. Then it sends commands that
 * the chip does not take.
 *
 * Build and run, from the project's root:
 *
 *   tools/build host && gcc -Iinclude examples/host.c target/staticlib/libhost.a -o target/example
 *   target/example
 */
#include "pcf8820.h"

#include <stdio.h>
#include <stdlib.h>
#include <string.h>

enum { WORDS = PCF8820_RECORD_WORDS, PLACES = PCF8820_PLACES, MOST_EVENTS = 1000 };

/* The least number that is no refusal, of the calls that give more than whether they were done. */
enum { ACCEPTED = PCF8820_ANSWER_NONE };

/* All that a chip is made of, and how many events there were. The host lends it to each call. */
static uint64_t record[WORDS];
static uint8_t memory[PLACES];
static uint64_t writers[PLACES];
static uint64_t count;

static uint16_t events[MOST_EVENTS];

/* Display on, each value in its own grey register, a box in grey 1, a bar in grey 3, two ramps. */
static const char drawing[] =
    "set\tpd\t0\n"
    "set\tdof\t0\n"
    "set\td\t1\n"
    "set\tgs1\t20\n"
    "set\tgs2\t41\n"
    "set\tgs3\t63\n"
    "fill\t1\t22\t1\t2\t85\n"
    "fill\t4\t8\t1\t2\t255\n"
    "put\t12\t1\t228\n"
    "put\t13\t1\t27\n";

/* What a terminal sends: X 101, which is no column, X 100, and a byte of no command of page 0. */
static const uint16_t message[] = {
    PCF8820_EVENT_START, 0x78, 0x80, 0xE5, 0x80, 0xE4, 0x80, 0x02, PCF8820_EVENT_STOP
};

/* Anything but 0 is a refusal. */
static void must(const char *call, uint64_t result)
{
    if (result == PCF8820_DONE)
        return;
    fprintf(stderr, "%s: refused by %llu\n", call, (unsigned long long)result);
    exit(1);
}

/* The same for the calls whose answers begin at 256: what is below that is a refusal. */
static uint64_t accepted(const char *call, uint64_t answer)
{
    if (answer < ACCEPTED)
        must(call, answer);
    return answer;
}

/* A drawing list becomes bus events for the chip as it stands. */
static uint64_t compile(void)
{
    uint64_t length, clocks, line;
    uint64_t result = pcf8820_compile(record, WORDS, (const uint8_t *)drawing, strlen(drawing),
                                      events, MOST_EVENTS, &length, &clocks, &line);
    if (line != 0)
        fprintf(stderr, "line %llu of the drawing is bad\n", (unsigned long long)line);
    if (result == PCF8820_REFUSED_SHORT_OUTPUT)
        fprintf(stderr, "the drawing needs %llu events\n", (unsigned long long)length);
    must("compile", result);
    printf("%llu events, %llu clocks\n", (unsigned long long)length, (unsigned long long)clocks);
    return length;
}

/* The run also counts the commands that were acknowledged and not taken. */
static void play(uint64_t length)
{
    uint64_t done, unknown, out_of_range;
    must("run", pcf8820_run(record, WORDS, memory, PLACES, writers, PLACES, &count, events, length,
                            &done, &unknown, &out_of_range));
    printf("%llu done, commands unknown: %llu, out of range: %llu\n", (unsigned long long)done,
           (unsigned long long)unknown, (unsigned long long)out_of_range);
}

/* Dark, undriven, or a level of 0 to 62, or 64. */
static char shown(uint64_t row, uint64_t column)
{
    uint64_t pixel = accepted("glass", pcf8820_glass(record, WORDS, memory, PLACES, row, column));
    if (pixel < PCF8820_GLASS_LEVEL)
        return '?';
    return " .:+#"[(pixel - PCF8820_GLASS_LEVEL + 15) / 16];
}

static void print_corner(uint64_t rows, uint64_t columns)
{
    for (uint64_t row = 0; row < rows; row++) {
        for (uint64_t column = 0; column < columns; column++)
            putchar(shown(row, column));
        putchar('\n');
    }
}

/* The count began at 0, so the first event has the number 1; 0 stands for none. */
static void print_writer(uint64_t row, uint64_t column)
{
    uint64_t answer = accepted("place", pcf8820_place(record, WORDS, row, column));
    uint64_t place = answer - PCF8820_GLASS_PLACE;
    uint64_t writer = writers[place];
    printf("row %llu, column %llu: ", (unsigned long long)row, (unsigned long long)column);
    if (writer == 0)
        printf("never written\n");
    else
        printf("event %llu, byte %u\n", (unsigned long long)writer, memory[place]);
}

/* The chip keeps the counts in its record: they began with a memory of zeros, and are read, not counted. */
static void print_counts(void)
{
    const uint64_t *pixels = record + PCF8820_WORD_PIXELS_0;
    printf("pixels of value 0: %llu, 1: %llu, 2: %llu, 3: %llu\n", (unsigned long long)pixels[0],
           (unsigned long long)pixels[1], (unsigned long long)pixels[2], (unsigned long long)pixels[3]);
}

/* A number below PCF8820_PULSES says why there are none. */
static void print_pulses(uint64_t row, uint64_t column)
{
    uint64_t pulses = accepted("pulses",
                               pcf8820_pulses(record, WORDS, memory, PLACES, row, column));
    printf("row %llu, column %llu: ", (unsigned long long)row, (unsigned long long)column);
    if (pulses < PCF8820_PULSES) {
        printf("%s\n", pulses == PCF8820_GLASS_DARK ? "dark" : "undriven");
        return;
    }
    printf("pulses");
    for (int frame = 0; frame < PCF8820_FRAMES; frame++)
        printf(" %u", (unsigned)(pulses >> 8 * frame & 255));
    printf("\n");
}

/* How wide all pulses of a row are together, frame by frame. Pixels that get none have 254 or 255. */
static void print_frames(uint64_t row)
{
    uint8_t pulses[PCF8820_ROW_PULSES];
    unsigned sums[PCF8820_FRAMES] = { 0 };
    must("pulse_row",
         pcf8820_pulse_row(record, WORDS, memory, PLACES, row, pulses, sizeof pulses));
    for (size_t i = 0; i < sizeof pulses; i++)
        if (pulses[i] <= PCF8820_MOST_PULSE)
            sums[i % PCF8820_FRAMES] += pulses[i];
    printf("row %llu: pulses %u %u %u %u\n", (unsigned long long)row, sums[0], sums[1], sums[2],
           sums[3]);
}

static const char *told(uint64_t answer)
{
    switch (answer) {
    case PCF8820_ANSWER_TAKEN: return "taken";
    case PCF8820_ANSWER_UNKNOWN: return "unknown in this page";
    case PCF8820_ANSWER_OUT_OF_RANGE: return "out of range";
    default: return NULL;
    }
}

/* The bus acknowledges every byte of the message. The answer to a command says what came of it. */
static void send_event(uint16_t event)
{
    uint64_t answer = accepted("step", pcf8820_step(record, WORDS, memory, PLACES, writers, PLACES,
                                                    &count, event));
    if (told(answer) != NULL)
        printf("command %u: %s\n", event, told(answer));
}

int main(void)
{
    must("reset", pcf8820_reset(record, WORDS, 0));
    play(compile());
    print_corner(14, 24);
    print_writer(5, 12);
    print_writer(8, 6);
    print_writer(0, 0);
    print_counts();
    print_pulses(6, 12);
    print_pulses(8, 6);
    print_frames(6);
    for (size_t i = 0; i < sizeof message / sizeof message[0]; i++)
        send_event(message[i]);
    return 0;
}
