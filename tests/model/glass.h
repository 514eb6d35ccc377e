/* What the glass shows, from the paper alone: the arguments and numbers of include/pcf8820.h. */
#ifndef GLASS_H
#define GLASS_H

#include <stddef.h>
#include <stdint.h>

uint64_t model_glass(const uint64_t *record, size_t record_len,
                     const uint8_t *memory, size_t memory_len,
                     uint64_t row, uint64_t column);

uint64_t model_place(const uint64_t *record, size_t record_len, uint64_t row, uint64_t column);

#endif
