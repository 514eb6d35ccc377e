/* Drawing lists: the text taken apart into lines, and the lines that are refused. */
#ifndef LIST_H
#define LIST_H

#include <stdbool.h>
#include <stddef.h>
#include <stdint.h>

enum { LIST_MALFORMED = 6, LIST_OUT_OF_RANGE = 7, LIST_TOO_LONG = 9 };

/* A good line. A put is a fill of one cell. */
struct line {
    bool fills;
    unsigned c0, c1, b0, b1, byte; /* if it fills: the rectangle, ends included */
    unsigned word, value;          /* if not: a word of the record and what it becomes */
};

/* The text and the place in it. */
struct list {
    const uint8_t *text;
    size_t length;
    size_t at;
};

/* Takes the next line out of a list. Gives 0, or the line's refusal. There must be a next line. */
uint64_t list_next(struct list *list, struct line *line);

bool list_ended(const struct list *list);

/* The refusal of the whole text, 0 if none. *number: the first bad line's, 0 if there is none. */
uint64_t list_refusal(const uint8_t *text, size_t length, uint64_t *number);

#endif
