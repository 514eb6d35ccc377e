#include "traffic.h"

#include "records.h"

const struct sampling each_once = { 1, 1, 0 };
const struct sampling some_often = { 1, 8, 0 };
const struct sampling noisy = { 1, 3, 5 };

/* ---- Messages ---------------------------------------------------------------------------- */

static void put_random_bits(struct lines *lines, unsigned count)
{
    put_bits(lines, (unsigned)below(256), count);
}

/* Bytes of either direction. The ninth bit of each is 0 or 1, and changes nothing but the event of a
 * byte that is read. */
static void put_bytes(struct lines *lines)
{
    unsigned first = (unsigned)below(256);
    put_byte(lines, first, (unsigned)below(2), first);
    for (uint64_t left = below(6); left > 0; left--) {
        unsigned value = (unsigned)below(256);
        unsigned ninth = (unsigned)below(2);
        put_byte(lines, value, ninth, first & 1 ? READ_ACK + ninth : value);
    }
}

/* Bits that START or STOP then drops. Before it the clock rises once more, unless the last bit is as
 * the data line must be; so of eight bits the last one is, and no ninth comes. */
static void put_part(struct lines *lines, bool before_start)
{
    unsigned count = 1 + (unsigned)below(8);
    if (count < 8)
        put_random_bits(lines, count);
    else
        put_bits(lines, (unsigned)below(128) << 1 | before_start, count);
}

/* It ends by STOP, or by the START of the next one. */
static void put_message(struct lines *lines)
{
    bool stops = below(4) != 0;
    put_start(lines);
    if (below(8) != 0)
        put_bytes(lines);
    if (below(4) == 0)
        put_part(lines, !stops);
    if (!stops)
        return;
    put_stop(lines);
    while (below(4) == 0) {
        put_random_bits(lines, (unsigned)below(12));
        put_stop(lines);
    }
}

/* Within a message or between two, and up to the next START more of it, clocks, bytes and STOPs. */
static void put_lost(struct lines *lines)
{
    if (below(2) == 0) {
        put_start(lines);
        put_random_bits(lines, (unsigned)below(9));
    }
    put_unclear(lines);
    for (uint64_t left = below(6); left > 0; left--)
        switch (below(4)) {
        case 0: put_unclear(lines); break;
        case 1: put_byte(lines, (unsigned)below(256), (unsigned)below(2), 0); break;
        case 2: put_random_bits(lines, (unsigned)below(12)); break;
        default: put_stop(lines); break;
        }
}

/* ---- Traffic ----------------------------------------------------------------------------- */

void clean_traffic(struct lines *lines, struct sampling sampling, size_t samples)
{
    clear_lines(lines, sampling);
    while (lines->length < samples)
        put_message(lines);
}

/* What is lost ends by the START of a message. */
void unclear_traffic(struct lines *lines, struct sampling sampling, size_t samples)
{
    clear_lines(lines, sampling);
    while (lines->length < samples) {
        if (below(2) == 0)
            put_lost(lines);
        put_message(lines);
    }
}
