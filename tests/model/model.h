/* A second PCF8820, written from the paper alone, to hold the library against.
 *
 * Reset, step and run take the same arguments, change the same buffers and give the same numbers as
 * the calls of include/pcf8820.h. They are not meant for several threads at once. */
#ifndef MODEL_H
#define MODEL_H

#include <stdbool.h>
#include <stddef.h>
#include <stdint.h>

uint64_t model_reset(uint64_t *record, size_t record_len, uint64_t pins);

uint64_t model_step(uint64_t *record, size_t record_len,
                    uint8_t *memory, size_t memory_len,
                    uint64_t *writers, size_t writers_len,
                    uint64_t *count, uint16_t event);

uint64_t model_run(uint64_t *record, size_t record_len,
                   uint8_t *memory, size_t memory_len,
                   uint64_t *writers, size_t writers_len,
                   uint64_t *count, const uint16_t *events, size_t events_len,
                   uint64_t *done, uint64_t *unknown, uint64_t *out_of_range);

/* Whether these words stand for a chip's record. */
bool model_allowed(const uint64_t *record, size_t record_len);

/* Whether this number is that of a bus event. */
bool model_listed(uint16_t event);

/* Whether a chip, its record allowed and its memory of the right length, has counts of pixels that the
 * event fits. Only a display byte can fail to. */
bool model_pixels_fit(const uint64_t *record, uint8_t *memory, uint16_t event);

/* The number of the row that takes the byte in this page, by the data sheet's order from 0; 21, the
 * number of rows, where none does. */
int model_row(int page, unsigned byte);

#endif
