/* Drawing lists to bus events, from the paper alone: the arguments and numbers of
 * include/pcf8820.h. Every row of the instruction table could be read, so 8 is never given. */
#ifndef COMPILE_H
#define COMPILE_H

#include <stddef.h>
#include <stdint.h>

uint64_t model_compile(const uint64_t *record, size_t record_len,
                       const uint8_t *text, size_t text_len,
                       uint16_t *out, size_t out_len,
                       uint64_t *length, uint64_t *clocks, uint64_t *line);

#endif
