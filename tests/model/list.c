#include "list.h"

#include "words.h"

#include <string.h>

enum { MOST_NEWLINES = 4096, LONGEST_NUMBER = 3, NO_NUMBER = 1000 };

/* A field of a line. No line that is good has more than six. */
struct part {
    const uint8_t *at;
    size_t length;
};

enum { MOST_PARTS = 6 };

/* A register that a line can set. */
struct field {
    const char *name;
    unsigned word;
    unsigned bits;
};

static const struct field fields[] = {
    { "do", DO, 1 }, { "pd", PD, 1 }, { "v", V, 1 }, { "d", D, 1 }, { "e", E, 1 },
    { "mx", MX, 1 }, { "my", MY, 1 }, { "ps", PS, 1 }, { "bs", BS, 3 }, { "bsh", BSH, 1 },
    { "dp", DP, 3 }, { "prs", PRS, 1 }, { "hve", HVE, 1 }, { "s", S, 3 }, { "tc", TC, 3 },
    { "sm", SM, 1 }, { "vop", VOP, 7 }, { "dof", DOF, 1 }, { "dm", DM, 1 }, { "ec", EC, 1 },
    { "oc", OC, 1 }, { "gs0", GS0, 6 }, { "gs1", GS1, 6 }, { "gs2", GS2, 6 }, { "gs3", GS3, 6 },
};

/* ---- Parts of a line --------------------------------------------------------------------- */

static bool is(const struct part *part, const char *word)
{
    return part->length == strlen(word) && memcmp(part->at, word, part->length) == 0;
}

static const struct field *field_of(const struct part *part)
{
    for (size_t i = 0; i < sizeof fields / sizeof fields[0]; i++)
        if (is(part, fields[i].name))
            return &fields[i];
    return NULL;
}

/* 0 to 999, or NO_NUMBER. */
static unsigned number_of(const struct part *part)
{
    unsigned number = 0;
    if (part->length == 0 || part->length > LONGEST_NUMBER)
        return NO_NUMBER;
    if (part->at[0] == '0' && part->length > 1)
        return NO_NUMBER;
    for (size_t i = 0; i < part->length; i++) {
        if (part->at[i] < '0' || part->at[i] > '9')
            return NO_NUMBER;
        number = 10 * number + (part->at[i] - '0');
    }
    return number;
}

/* Parts the line at each tab. Gives the number of parts, or 0 if there are too many. */
static size_t split(const uint8_t *line, size_t length, struct part *parts)
{
    size_t count = 0;
    size_t from = 0;
    for (size_t i = 0; i <= length; i++) {
        if (i < length && line[i] != '\t')
            continue;
        if (count == MOST_PARTS)
            return 0;
        parts[count++] = (struct part) { line + from, i - from };
        from = i + 1;
    }
    return count;
}

/* ---- Lines ------------------------------------------------------------------------------- */

/* Reads this many numbers, whatever they stand for. False if one of them is none. */
static bool read_numbers(const struct part *parts, unsigned *numbers, size_t count)
{
    for (size_t i = 0; i < count; i++) {
        numbers[i] = number_of(&parts[i]);
        if (numbers[i] == NO_NUMBER)
            return false;
    }
    return true;
}

static uint64_t check_fill(const struct line *line)
{
    bool in_memory = line->c0 <= line->c1 && line->c1 < COLUMNS
                     && line->b0 <= line->b1 && line->b1 < BANKS;
    unsigned most = line->b1 == BANKS - 1 ? 63 : 255;
    return in_memory && line->byte <= most ? 0 : LIST_OUT_OF_RANGE;
}

static uint64_t read_put(const struct part *parts, struct line *line)
{
    unsigned n[3];
    if (!read_numbers(parts, n, 3))
        return LIST_MALFORMED;
    *line = (struct line) {
        .fills = true, .c0 = n[0], .c1 = n[0], .b0 = n[1], .b1 = n[1], .byte = n[2]
    };
    return check_fill(line);
}

static uint64_t read_fill(const struct part *parts, struct line *line)
{
    unsigned n[5];
    if (!read_numbers(parts, n, 5))
        return LIST_MALFORMED;
    *line = (struct line) {
        .fills = true, .c0 = n[0], .c1 = n[1], .b0 = n[2], .b1 = n[3], .byte = n[4]
    };
    return check_fill(line);
}

static uint64_t read_set(const struct part *parts, struct line *line)
{
    const struct field *field = field_of(&parts[0]);
    unsigned value;
    if (field == NULL || !read_numbers(&parts[1], &value, 1))
        return LIST_MALFORMED;
    *line = (struct line) { .word = field->word, .value = value };
    return value >> field->bits == 0 ? 0 : LIST_OUT_OF_RANGE;
}

static uint64_t read_line(const uint8_t *text, size_t length, struct line *line)
{
    struct part parts[MOST_PARTS];
    size_t count = split(text, length, parts);
    if (count == 4 && is(&parts[0], "put"))
        return read_put(&parts[1], line);
    if (count == 6 && is(&parts[0], "fill"))
        return read_fill(&parts[1], line);
    if (count == 3 && is(&parts[0], "set"))
        return read_set(&parts[1], line);
    return LIST_MALFORMED;
}

/* ---- The list ---------------------------------------------------------------------------- */

bool list_ended(const struct list *list)
{
    return list->at == list->length;
}

uint64_t list_next(struct list *list, struct line *line)
{
    const uint8_t *from = list->text + list->at;
    const uint8_t *newline = memchr(from, '\n', list->length - list->at);
    if (newline == NULL) {
        list->at = list->length;
        return LIST_MALFORMED;
    }
    size_t length = (size_t)(newline - from);
    list->at += length + 1;
    return read_line(from, length, line);
}

static size_t newlines(const uint8_t *text, size_t length)
{
    size_t count = 0;
    for (size_t i = 0; i < length; i++)
        count += text[i] == '\n';
    return count;
}

uint64_t list_refusal(const uint8_t *text, size_t length, uint64_t *number)
{
    struct list list = { .text = text, .length = length };
    struct line line;

    *number = 0;
    if (newlines(text, length) > MOST_NEWLINES)
        return LIST_TOO_LONG;
    for (uint64_t n = 1; !list_ended(&list); n++) {
        uint64_t refusal = list_next(&list, &line);
        if (refusal != 0) {
            *number = n;
            return refusal;
        }
    }
    return 0;
}
