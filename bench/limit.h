/* The chip by hand, for speed alone: what code in much the shape of the library's run can reach. The arguments,
 * buffers and numbers are those of model.h. It is held against the library on the streams of the bench alone,
 * in which there is no V 1 and no refusal. */
#ifndef LIMIT_H
#define LIMIT_H

#include <stddef.h>
#include <stdint.h>

uint64_t limit_step(uint64_t *record, size_t record_len,
                    uint8_t *memory, size_t memory_len,
                    uint64_t *writers, size_t writers_len,
                    uint64_t *count, uint16_t event);

uint64_t limit_run(uint64_t *record, size_t record_len,
                   uint8_t *memory, size_t memory_len,
                   uint64_t *writers, size_t writers_len,
                   uint64_t *count, const uint16_t *events, size_t events_len,
                   uint64_t *done, uint64_t *unknown, uint64_t *out_of_range);

#endif
