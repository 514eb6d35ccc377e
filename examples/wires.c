/* A probe on the two wires of the bus. It hands over samples in parts; they become bus events, which
 * are played on a chip, and then the chip tells which event wrote a cell.
 *
 * A part ends anywhere, in the middle of a byte too. The event buffer is small, so most parts take more
 * than one call. A spike on both wires spoils the second of the three messages.
 *
 * Build and run, from the project's root:
 *
 *   tools/build host && gcc -Iinclude examples/wires.c target/staticlib/libhost.a -o target/wires
 *   target/wires
 */
#include "pcf8820.h"

#include <stdio.h>
#include <stdlib.h>

enum { WORDS = PCF8820_RECORD_WORDS, PLACES = PCF8820_PLACES, PART = 100, MOST_EVENTS = 3 };

/* All that a chip is made of, how many events there were, and how the wires stand. The host lends it to
 * each call. */
static uint64_t record[WORDS];
static uint8_t memory[PLACES];
static uint64_t writers[PLACES];
static uint64_t count;
static uint64_t wires[PCF8820_WIRE_WORDS];

/* What the probe recorded, a digit for each sample: 2 for the clock and 1 for the data line, where they
 * are high. A bit, O or I, is three samples: the clock is low, high and low again. */
#define O "020"
#define I "131"
#define ACK O
#define START "320"
#define STOP "023"
#define SPIKE "30"

static const char recorded[] =
    START /* to the chip with pins 0: column 5, bank 2, and the display byte 167 */
    O I I I I O O O ACK   I O O O O O O O ACK   I O O O O I O I ACK
    I O O O O O O O ACK   O I O O O O I O ACK   O I O O O O O O ACK
    I O I O O I I I ACK
    STOP
    START /* the same cell, but the display byte is spoiled */
    O I I I I O O O ACK   I O O O O O O O ACK   I O O O O I O I ACK
    I O O O O O O O ACK   O I O O O O I O ACK   O I O O O O O O ACK
    O O O SPIKE O O O O O ACK
    STOP
    START /* column 6, bank 2, and the display byte 24 */
    O I I I I O O O ACK   I O O O O O O O ACK   I O O O O I I O ACK
    I O O O O O O O ACK   O I O O O O I O ACK   O I O O O O O O ACK
    O O O I I O O O ACK
    STOP;

/* Anything but 0 is a refusal. */
static void must(const char *call, uint64_t result)
{
    if (result == PCF8820_DONE)
        return;
    fprintf(stderr, "%s: refused by %llu\n", call, (unsigned long long)result);
    exit(1);
}

/* A host with a real probe, or with a file of samples, reads it here. */
static size_t next_part(uint8_t *samples)
{
    static size_t at;
    size_t length = 0;
    while (length < PART && recorded[at] != '\0')
        samples[length++] = (uint8_t)(recorded[at++] - '0');
    return length;
}

/* The chip refuses none of the events that can stand on the wires, but for a full count. */
static void play(const uint16_t *events, uint64_t length)
{
    uint64_t done, unknown, out_of_range;
    must("run", pcf8820_run(record, WORDS, memory, PLACES, writers, PLACES, &count, events, length,
                            &done, &unknown, &out_of_range));
}

/* After 15 the events are played, the buffer is free again, and the rest of the samples is read. */
static void read_part(const uint8_t *samples, size_t length)
{
    uint16_t events[MOST_EVENTS];
    uint64_t consumed, written, result;
    do {
        result = pcf8820_wires(wires, PCF8820_WIRE_WORDS, samples, length, events, MOST_EVENTS,
                               &consumed, &written);
        if (result != PCF8820_REFUSED_EVENT_BUFFER)
            must("wires", result);
        printf("%llu of %zu samples, events: %llu%s\n", (unsigned long long)consumed, length,
               (unsigned long long)written, result == PCF8820_DONE ? "" : ", no room for the next");
        play(events, written);
        samples += consumed;
        length -= consumed;
    } while (result == PCF8820_REFUSED_EVENT_BUFFER);
}

/* The count began at 0, so the first event has the number 1; 0 stands for none. */
static void print_writer(unsigned column, unsigned bank)
{
    unsigned place = PCF8820_COLUMNS * bank + column;
    printf("column %u, bank %u: byte %u, event %llu\n", column, bank, memory[place],
           (unsigned long long)writers[place]);
}

int main(void)
{
    uint8_t samples[PART];
    size_t length;
    must("reset", pcf8820_reset(record, WORDS, 0));
    must("wires_start", pcf8820_wires_start(wires, PCF8820_WIRE_WORDS));
    while ((length = next_part(samples)) > 0)
        read_part(samples, length);
    printf("events: %llu, unclear samples: %llu\n", (unsigned long long)count,
           (unsigned long long)wires[PCF8820_WIRE_WORD_UNCLEAR]);
    print_writer(5, 2);
    print_writer(6, 2);
    return 0;
}
