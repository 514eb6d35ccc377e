#define _DEFAULT_SOURCE

#include "buffers.h"

#include "report.h"

#include <string.h>
#include <sys/mman.h>
#include <unistd.h>

enum { CANARY = 0xA5, STRIP = 4096 };

void map_lent(struct lent *lent, size_t bytes)
{
    size_t page = (size_t)sysconf(_SC_PAGESIZE);
    size_t room = (bytes + page - 1) / page * page;
    uint8_t *all = mmap(NULL, room + 2 * page, PROT_NONE, MAP_PRIVATE | MAP_ANONYMOUS, -1, 0);
    if (all == MAP_FAILED || mprotect(all + page, room, PROT_READ | PROT_WRITE) != 0)
        fail("no memory for the buffers");
    lent->pages = all + page;
    lent->room = room;
    put_lent(lent, 0, AT_START);
}

static size_t smaller(size_t a, size_t b)
{
    return a < b ? a : b;
}

/* A buffer that stays where it is keeps its canaries, which the last comparison found whole. */
void put_lent(struct lent *lent, size_t bytes, enum where where)
{
    if (bytes > lent->room)
        fail("a buffer of %zu bytes has no room", bytes);
    size_t before = where == AT_END ? lent->room - bytes : 0;
    size_t after = lent->room - bytes - before;
    lent->where = where;
    if (lent->at == lent->pages + before && lent->bytes == bytes)
        return;
    lent->at = lent->pages + before;
    lent->bytes = bytes;
    lent->strip = lent->at - smaller(before, STRIP);
    lent->strip_bytes = smaller(before, STRIP) + bytes + smaller(after, STRIP);
    memset(lent->strip, CANARY, lent->strip_bytes);
}

void fill_lent(struct lent *lent, const void *contents, size_t bytes)
{
    put_lent(lent, bytes, lent->where);
    memcpy(lent->at, contents, bytes);
}

static unsigned long long element(const struct lent *lent, size_t index, size_t width)
{
    uint64_t word;
    uint16_t event;
    if (width == sizeof word) {
        memcpy(&word, lent->at + index * width, width);
        return word;
    }
    if (width == sizeof event) {
        memcpy(&event, lent->at + index * width, width);
        return event;
    }
    return lent->at[index];
}

void compare_contents(const char *name, size_t width, const struct lent *ours,
                      const struct lent *theirs)
{
    if (memcmp(ours->at, theirs->at, ours->bytes) == 0)
        return;
    for (size_t i = 0; i < ours->bytes / width; i++)
        if (element(ours, i, width) != element(theirs, i, width))
            fail("%s, element %zu: the model has %llu, the library %llu", name, i,
                 element(ours, i, width), element(theirs, i, width));
}

static void check_canaries(const char *who, const char *name, const struct lent *lent)
{
    static uint8_t canaries[STRIP];
    size_t before = (size_t)(lent->at - lent->strip);
    size_t after = lent->strip_bytes - before - lent->bytes;
    if (canaries[0] != CANARY)
        memset(canaries, CANARY, sizeof canaries);
    if (memcmp(lent->strip, canaries, before) != 0)
        fail("the %s wrote before the start of its %s", who, name);
    if (memcmp(lent->at + lent->bytes, canaries, after) != 0)
        fail("the %s wrote past the end of its %s", who, name);
}

void compare_canaries(const char *name, const struct lent *ours, const struct lent *theirs)
{
    check_canaries("model", name, ours);
    check_canaries("library", name, theirs);
}

void compare_lent(const char *name, size_t width, const struct lent *ours, const struct lent *theirs)
{
    compare_contents(name, width, ours, theirs);
    compare_canaries(name, ours, theirs);
}

uint64_t *words_of(const struct lent *lent)
{
    return (uint64_t *)(void *)lent->at;
}

uint16_t *events_of(const struct lent *lent)
{
    return (uint16_t *)(void *)lent->at;
}
