/* What the tests say: the theme at work, the message at a difference, the number of calls that were
 * equal. */
#ifndef REPORT_H
#define REPORT_H

#include <stdbool.h>
#include <stddef.h>
#include <stdint.h>

/* True when only a sample of the calls is wanted. */
extern bool quick;

/* Makes a call that dies fail like any other. */
void catch_signals(void);

/* Names the theme that the next calls belong to, for the message at a difference. */
void theme(const char *name);

/* Names the next call; describe prints what it is given. */
void next_call(const char *name, void (*describe)(void));

void print_record(const uint64_t *record, size_t record_len);

_Noreturn void fail(const char *format, ...);

/* Fails unless both sides gave the same result. */
void equal_results(uint64_t ours, uint64_t theirs);

/* Counts a call that was equal in everything. */
void count_call(void);

/* Prints how many there were. */
void report_calls(const char *tests);

#endif
