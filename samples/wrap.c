/* One display byte that is sent when 2^32 - 1 events have already been counted. */
#include <inttypes.h>
#include <stdio.h>
#include "pcf8820.h"

enum { RECORD = PCF8820_RECORD_WORDS, CELLS = PCF8820_PLACES };

int main(void)
{
    static uint64_t record[RECORD], writers[CELLS];
    static uint8_t memory[CELLS];
    static const uint16_t events[] = { 256, 0x78, 0x40, 167, 257 };
    uint64_t count = 4294967295u, done, unknown, out_of_range;

    pcf8820_reset(record, RECORD, 0);
    pcf8820_run(record, RECORD, memory, CELLS, writers, CELLS, &count, events, 5, &done, &unknown,
                &out_of_range);
    printf("byte %d, written by event %" PRIu64 "\n", memory[0], writers[0]);
    return 0;
}
