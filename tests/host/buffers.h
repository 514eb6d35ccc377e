/* Buffers that are lent to the library and to the model, one for each side.
 *
 * Each lies in pages of its own: it touches either the first or the last byte of the pages, the rest
 * is filled with canaries, and a page before and after may not be touched at all. */
#ifndef BUFFERS_H
#define BUFFERS_H

#include <stddef.h>
#include <stdint.h>

/* Where a buffer lies in its pages. */
enum where { AT_START, AT_END };

/* The strip is the part of the pages that is watched: the buffer and the canaries beside it. */
struct lent {
    uint8_t *pages;
    size_t room;
    enum where where;
    uint8_t *at;
    size_t bytes;
    uint8_t *strip;
    size_t strip_bytes;
};

/* Gives a buffer its pages, for up to this many bytes. Once for each buffer. */
void map_lent(struct lent *lent, size_t bytes);

/* Makes the buffer this long and puts it there. What it contains is then left open. */
void put_lent(struct lent *lent, size_t bytes, enum where where);

/* The same, without moving it to the other end, and with these contents. */
void fill_lent(struct lent *lent, const void *contents, size_t bytes);

/* Fails if the two differ. Elements are width bytes wide. */
void compare_contents(const char *name, size_t width, const struct lent *ours,
                      const struct lent *theirs);

/* Fails if one side wrote outside its own. */
void compare_canaries(const char *name, const struct lent *ours, const struct lent *theirs);

/* Both. */
void compare_lent(const char *name, size_t width, const struct lent *ours, const struct lent *theirs);

uint64_t *words_of(const struct lent *lent);
uint16_t *events_of(const struct lent *lent);

#endif
