/* Drawing lists for the tests, made line by line, and random ones. */
#ifndef LISTS_H
#define LISTS_H

#include <stddef.h>
#include <stdint.h>

enum { MOST_TEXT = 1 << 20, MOST_NEWLINES = 4096, FIELDS = 25 };

struct text {
    size_t length;
    uint8_t bytes[MOST_TEXT];
};

/* The words of a record that a line can set. Their names are the words' own. */
extern const size_t field_words[FIELDS];

void clear_text(struct text *text);
void add_bytes(struct text *text, const void *bytes, size_t length);

/* Adds what printf would print. */
void add_text(struct text *text, const char *format, ...);

void add_put(struct text *text, unsigned column, unsigned bank, unsigned byte);
void add_fill(struct text *text, unsigned c0, unsigned c1, unsigned b0, unsigned b1, unsigned byte);
void add_set(struct text *text, size_t word, unsigned value);

/* Good lines: a register with any value that it takes, a rectangle that is mostly small, or any. */
void add_random_set(struct text *text);
void add_random_fill(struct text *text);
void add_random_line(struct text *text);

/* A good list of this many lines. */
void random_list(struct text *text, uint64_t lines);

#endif
