/* The calls of the glass and of its pulses, made on the library and on the model, and the comparison
 * of what they give. Neither may change what it is lent but the row buffer, and that only if the call
 * is not refused. */
#ifndef GLASS_CALLS_H
#define GLASS_CALLS_H

#include "buffers.h"
#include "report.h"

#include <stddef.h>
#include <stdint.h>

enum { ROWS = 67, COLUMNS = 101, PLACES = 1717, RECORD_LEN = 38, MOST_WORDS = RECORD_LEN + 1 };

enum { FRAMES = 4, ROW_BYTES = COLUMNS * FRAMES, MOST_ROW_BYTES = 2 * ROW_BYTES };

/* What the glass gives for a pixel that has no level. */
enum { DARK = 256, UNDRIVEN = 257, LEVEL = 512 };

void glass_start(void);

/* Lends buffers of these lengths, at most 1 too long. The memory has random contents. */
void glass_lend(size_t record_len, size_t memory_len, enum where where);

/* Lends buffers of the right lengths, by turns at the start and at the end of their pages. */
void glass_lend_usual(void);

/* Gives both sides this record, as many words as the lent one has. words has MOST_WORDS words. */
void glass_record(const uint64_t *words);

/* Puts a byte into the memory of both sides. */
void glass_byte(size_t place, uint8_t byte);

/* Make the call on both sides and compare. They give the common result. */
uint64_t compare_glass(uint64_t row, uint64_t column);
uint64_t compare_place(uint64_t row, uint64_t column);
uint64_t compare_pulses(uint64_t row, uint64_t column);

/* All three calls. */
void compare_pixel(uint64_t row, uint64_t column);

/* The same for the pulses of a row, into a buffer of this length, at most MOST_ROW_BYTES, with random
 * contents. */
uint64_t compare_pulse_row(uint64_t row, size_t out_len);

/* What the library left in the row buffer. */
const uint8_t *row_buffer(void);

#endif
