/* The pulses of the four frames that build a grey level, from the paper alone: the arguments and
 * numbers of include/pcf8820.h. */
#ifndef PULSES_H
#define PULSES_H

#include <stddef.h>
#include <stdint.h>

uint64_t model_pulses(const uint64_t *record, size_t record_len,
                      const uint8_t *memory, size_t memory_len,
                      uint64_t row, uint64_t column);

uint64_t model_pulse_row(const uint64_t *record, size_t record_len,
                         const uint8_t *memory, size_t memory_len,
                         uint64_t row, uint8_t *out, size_t out_len);

#endif
