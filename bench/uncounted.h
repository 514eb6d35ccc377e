/* The model's run with counts of pixels that no display byte mends. */
#ifndef UNCOUNTED_H
#define UNCOUNTED_H

#include <stddef.h>
#include <stdint.h>

uint64_t uncounted_run(uint64_t *record, size_t record_len,
                       uint8_t *memory, size_t memory_len,
                       uint64_t *writers, size_t writers_len,
                       uint64_t *count, const uint16_t *events, size_t events_len,
                       uint64_t *done, uint64_t *unknown, uint64_t *out_of_range);

#endif
