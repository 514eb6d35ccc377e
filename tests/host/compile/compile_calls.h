/* The compiler's call, made on the library and on the model, and the comparison of what they give.
 *
 * Each side has its own record, text, output and three numbers. The record and the text may not be
 * changed, nor the output beyond what the call says. */
#ifndef COMPILE_CALLS_H
#define COMPILE_CALLS_H

#include "buffers.h"
#include "lists.h"
#include "report.h"

#include <stddef.h>
#include <stdint.h>

/* Enough for 4,096 fills of the whole glass, and two events more. */
enum { MOST_OUT = 4096 * 101 * (10 + 17) + 2 };

struct compiled {
    uint64_t length, clocks, line;
    const uint16_t *events; /* what the library wrote, up to the next call */
};

void compile_start(void);

/* Makes the call on both sides with this much room for the output, and compares. It gives the common
 * result. words has one word more than a record. */
uint64_t compare_compile(const uint64_t *words, size_t record_len, const struct text *text,
                         size_t room, struct compiled *compiled);

/* The length that this list needs: 0 if it is refused. */
size_t needed(const uint64_t *words, const struct text *text);

/* With a record of the right length and room for all, and for up to two events more. */
uint64_t compare_list(const uint64_t *words, const struct text *text, struct compiled *compiled);

/* With every room that tells: none, too little, just enough, more. */
void compare_rooms(const uint64_t *words, const struct text *text);

/* The same as compare_list; fails unless this result and this line are given. */
void expect_refusal(const uint64_t *words, const struct text *text, uint64_t result, uint64_t line);

#endif
