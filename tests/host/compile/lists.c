#include "lists.h"

#include "records.h"

#include <stdarg.h>
#include <stdio.h>
#include <stdlib.h>
#include <string.h>

const size_t field_words[FIELDS] = {
    1, 2, 3, 4, 5, 6, 7, 8, 11, 12, 13, 14, 15, 16, 17, 18, 19, 21, 22, 23, 24, 25, 26, 27, 28
};

static void need_room(const struct text *text, size_t length)
{
    if (length <= MOST_TEXT - text->length)
        return;
    fprintf(stderr, "lists: a text has more than %d bytes\n", MOST_TEXT);
    exit(2);
}

void clear_text(struct text *text)
{
    text->length = 0;
}

void add_bytes(struct text *text, const void *bytes, size_t length)
{
    need_room(text, length);
    memcpy(text->bytes + text->length, bytes, length);
    text->length += length;
}

void add_text(struct text *text, const char *format, ...)
{
    char line[100];
    va_list args;
    va_start(args, format);
    int length = vsnprintf(line, sizeof line, format, args);
    va_end(args);
    add_bytes(text, line, (size_t)length);
}

void add_put(struct text *text, unsigned column, unsigned bank, unsigned byte)
{
    add_text(text, "put\t%u\t%u\t%u\n", column, bank, byte);
}

void add_fill(struct text *text, unsigned c0, unsigned c1, unsigned b0, unsigned b1, unsigned byte)
{
    add_text(text, "fill\t%u\t%u\t%u\t%u\t%u\n", c0, c1, b0, b1, byte);
}

void add_set(struct text *text, size_t word, unsigned value)
{
    add_text(text, "set\t%s\t%u\n", word_name(word), value);
}

/* ---- Random lines ------------------------------------------------------------------------ */

/* The registers that decide on the way of the bytes come oftener than by chance. */
static size_t random_field(void)
{
    static const size_t ways[] = { W_V, W_MX, W_DO, W_PD };
    if (below(3) == 0)
        return ways[below(sizeof ways / sizeof ways[0])];
    return field_words[below(FIELDS)];
}

void add_random_set(struct text *text)
{
    size_t word = random_field();
    add_set(text, word, (unsigned)below(word_limit(word) + 1));
}

static unsigned random_byte(unsigned last_bank)
{
    return (unsigned)below(last_bank == 16 ? 64 : 256);
}

/* A stretch of 0 to last, ends included, of at most this length. It ends at an edge quite often. */
static void random_stretch(unsigned last, unsigned longest, unsigned *from, unsigned *to)
{
    unsigned more = (unsigned)below(longest);
    if (more > last)
        more = last;
    *from = (unsigned)below(last - more + 1);
    if (below(4) == 0)
        *from = below(2) ? 0 : last - more;
    *to = *from + more;
}

void add_random_fill(struct text *text)
{
    unsigned c0, c1, b0, b1;
    unsigned longest = below(8) ? 6 : 101;
    random_stretch(100, longest, &c0, &c1);
    random_stretch(16, longest, &b0, &b1);
    add_fill(text, c0, c1, b0, b1, random_byte(b1));
}

static void add_random_put(struct text *text)
{
    unsigned bank = (unsigned)below(17);
    add_put(text, (unsigned)below(101), bank, random_byte(bank));
}

void add_random_line(struct text *text)
{
    switch (below(5)) {
    case 0: add_random_put(text); break;
    case 1: case 2: add_random_fill(text); break;
    default: add_random_set(text); break;
    }
}

void random_list(struct text *text, uint64_t lines)
{
    clear_text(text);
    for (uint64_t i = 0; i < lines; i++)
        add_random_line(text);
}
