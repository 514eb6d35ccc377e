/* Two messages of a terminal that counts columns from 1: what its X commands are answered. */
#include <inttypes.h>
#include <stdio.h>
#include <string.h>
#include "pcf8820.h"

enum { RECORD = PCF8820_RECORD_WORDS, CELLS = PCF8820_PLACES, EVENTS = 22 };

int main(void)
{
    static uint64_t record[RECORD], writers[CELLS];
    static uint8_t memory[CELLS];
    static const uint16_t events[EVENTS] = {
        256, 120, 128, 1, 128, 228, 128, 66, 64, 255, 257,
        256, 120, 128, 1, 128, 229, 128, 66, 64, 255, 257,
    };
    uint64_t count = 0, done, unknown, out_of_range;

    pcf8820_reset(record, RECORD, 0);
    for (int i = 0; i < EVENTS; i++) {
        uint64_t answer = pcf8820_step(record, RECORD, memory, CELLS, writers, CELLS, &count,
                                       events[i]);
        if (events[i] == 228 || events[i] == 229)
            printf("%d is answered by %" PRIu64 "\n", events[i], answer);
    }

    /* The same events in one run, on a chip after reset, whose pixel counts are those of zeros. */
    pcf8820_reset(record, RECORD, 0);
    memset(memory, 0, sizeof memory);
    count = 0;
    pcf8820_run(record, RECORD, memory, CELLS, writers, CELLS, &count, events, EVENTS, &done,
                &unknown, &out_of_range);
    printf("%" PRIu64 " events, out of range %" PRIu64 "\n", done, out_of_range);
    return 0;
}
