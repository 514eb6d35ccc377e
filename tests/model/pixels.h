/* The counting start, from the papers alone: the arguments and numbers of pcf8820_counts in
 * include/pcf8820.h. */
#ifndef PIXELS_H
#define PIXELS_H

#include <stddef.h>
#include <stdint.h>

uint64_t model_counts(const uint8_t *memory, size_t memory_len,
                      uint64_t *n0, uint64_t *n1, uint64_t *n2, uint64_t *n3);

#endif
