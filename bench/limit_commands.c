#include "limit_commands.h"

#include "bus.h"
#include "words.h"

enum { LAST_PAGE = 4 };

static uint64_t set(uint64_t *now, unsigned word, unsigned value)
{
    now[word] = value;
    return TAKEN;
}

/* A value above the limit leaves the register as it is, and is told. */
static uint64_t set_up_to(unsigned most, uint64_t *now, unsigned word, unsigned value)
{
    return value <= most ? set(now, word, value) : OUT_OF_RANGE;
}

/* The lowest bits of the byte, one for each register. */
static uint64_t set_two(uint64_t *now, unsigned bit1, unsigned bit0, unsigned byte)
{
    now[bit1] = byte >> 1 & 1;
    now[bit0] = byte & 1;
    return TAKEN;
}

static uint64_t set_three(uint64_t *now, unsigned bit2, unsigned bit1, unsigned bit0, unsigned byte)
{
    now[bit2] = byte >> 2 & 1;
    return set_two(now, bit1, bit0, byte);
}

static uint64_t in_page_0(uint64_t *now, unsigned byte)
{
    if (byte >= 0x80)
        return set_up_to(COLUMNS - 1, now, X, byte & 0x7F);
    if (byte >> 5 == 2)
        return set_up_to(BANKS - 1, now, Y, byte & 0x1F);
    if (byte >> 3 == 1)
        return set_up_to(LAST_PAGE, now, H, byte & 7);
    if (byte >> 4 == 1 && (byte & 1) == 0)
        return set_three(now, DO, PD, V, byte >> 1);
    return UNKNOWN;
}

static uint64_t in_page_1(uint64_t *now, unsigned byte)
{
    if (byte >> 2 == 1)
        return set_two(now, D, E, byte);
    if (byte >> 3 == 1)
        return set_three(now, MX, MY, PS, byte);
    if (byte >> 3 == 2)
        return set(now, BS, byte & 7);
    if (byte >> 1 == 0x1C)
        return set(now, BSH, byte & 1);
    if (byte >> 3 == 8)
        return set(now, DP, byte & 7);
    return UNKNOWN;
}

static uint64_t in_page_2(uint64_t *now, unsigned byte)
{
    if (byte >= 0x80)
        return set(now, VOP, byte & 0x7F);
    if (byte >> 2 == 1)
        return set_two(now, PRS, HVE, byte);
    if (byte >> 3 == 1)
        return set(now, S, byte & 7);
    if (byte >> 3 == 2)
        return set(now, TC, byte & 7);
    if (byte >> 1 == 0x10)
        return set(now, SM, byte & 1);
    return UNKNOWN;
}

static uint64_t in_page_3(uint64_t *now, unsigned byte)
{
    if (byte >> 6 == 2)
        return set(now, GS0 + (unsigned)now[GR], byte & 0x3F);
    if (byte >> 2 == 0x10)
        return set(now, GR, byte & 3);
    return UNKNOWN;
}

static uint64_t in_page_4(uint64_t *now, unsigned byte)
{
    if (byte >> 2 == 1)
        return set_two(now, DOF, DM, byte);
    if (byte >> 2 == 2)
        return set_two(now, EC, OC, byte);
    return (byte & 0xE7) == 0x40 ? TAKEN : UNKNOWN;
}

uint64_t limit_command(uint64_t *now, unsigned byte)
{
    if (byte == 0)
        return TAKEN;
    if (byte == 1)
        return set(now, H, 0);
    switch (now[H]) {
    case 0: return in_page_0(now, byte);
    case 1: return in_page_1(now, byte);
    case 2: return in_page_2(now, byte);
    case 3: return in_page_3(now, byte);
    default: return in_page_4(now, byte);
    }
}
