/* Samples of the two wires to bus events, from the papers alone: the arguments and numbers of
 * pcf8820_wires_start and pcf8820_wires in include/pcf8820.h. */
#ifndef WIRES_H
#define WIRES_H

#include <stddef.h>
#include <stdint.h>

uint64_t model_wires_start(uint64_t *state, size_t state_len);

uint64_t model_wires(uint64_t *state, size_t state_len,
                     const uint8_t *samples, size_t samples_len,
                     uint16_t *events, size_t events_len,
                     uint64_t *consumed, uint64_t *written);

#endif
