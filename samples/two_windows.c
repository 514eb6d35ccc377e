/* Two messages on a bus of four chips: a byte for the chip with pins 0, then one for the chip with pins 2. */
#include <inttypes.h>
#include <stdio.h>
#include "pcf8820.h"

enum { RECORD = PCF8820_RECORD_WORDS, CELLS = PCF8820_PLACES, CHIPS = PCF8820_CHIPS, EVENTS = 10 };

int main(void)
{
    static uint64_t record[CHIPS][RECORD], writers[CHIPS][CELLS];
    static uint8_t memory[CHIPS][CELLS];
    static const uint16_t events[EVENTS] = { 256, 120, 64, 167, 257, 256, 124, 64, 90, 257 };
    struct pcf8820_chip chips[CHIPS];
    uint64_t count = 0;

    for (int n = 0; n < CHIPS; n++) {
        chips[n] = (struct pcf8820_chip) { record[n], RECORD, memory[n], CELLS, writers[n], CELLS };
        pcf8820_reset(record[n], RECORD, (uint64_t)n);
    }
    for (int i = 0; i < EVENTS; i++) {
        uint64_t answer = pcf8820_bus(chips, &count, events[i], 0);
        if (events[i] < 256)
            printf("%d is answered by %" PRIu64 "\n", events[i], answer);
    }
    for (int n = 0; n < CHIPS; n++)
        printf("chip %d: byte %d, written by event %" PRIu64 "\n", n, memory[n][0], writers[n][0]);
    return 0;
}
