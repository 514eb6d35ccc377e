#include "lines.h"

#include "records.h"

void clear_lines(struct lines *lines, struct sampling sampling)
{
    lines->sampling = sampling;
    lines->length = 0;
    lines->told = 0;
    lines->unclear = 0;
    lines->lost = false;
    lines->level = BOTH;
    lines->changed = 0;
}

static void show(struct lines *lines, unsigned level)
{
    const struct sampling *sampling = &lines->sampling;
    size_t samples = sampling->least + (size_t)below(sampling->most - sampling->least + 1);
    if (level == lines->level)
        return;
    lines->level = level;
    lines->changed = lines->length;
    for (size_t i = 0; i < samples; i++)
        lines->samples[lines->length++] = (uint8_t)level;
}

static void set_clock(struct lines *lines, unsigned high)
{
    show(lines, (high ? SCL : 0) | (lines->level & SDA));
}

static void set_data(struct lines *lines, unsigned high)
{
    show(lines, (lines->level & SCL) | (high ? SDA : 0));
}

static void tell(struct lines *lines, unsigned event)
{
    if (lines->lost)
        return;
    lines->events[lines->told] = (uint16_t)event;
    lines->places[lines->told++] = lines->changed;
}

/* The clock goes low and high again, with this level of the data line. */
static void put_clock(struct lines *lines, unsigned data)
{
    set_clock(lines, 0);
    for (uint64_t wiggles = below(lines->sampling.wiggles + 1); wiggles > 0; wiggles--)
        set_data(lines, wiggles % 2);
    set_data(lines, data);
    set_clock(lines, 1);
}

/* At once, if the lines are as they must be before it. */
void put_start(struct lines *lines)
{
    if (lines->level != BOTH)
        put_clock(lines, 1);
    set_data(lines, 0);
    lines->lost = false;
    tell(lines, START);
}

void put_stop(struct lines *lines)
{
    if (lines->level != SCL)
        put_clock(lines, 0);
    set_data(lines, 1);
    tell(lines, STOP);
}

void put_bits(struct lines *lines, unsigned value, unsigned count)
{
    while (count-- > 0)
        put_clock(lines, value >> count & 1);
}

void put_byte(struct lines *lines, unsigned value, unsigned ninth, unsigned event)
{
    put_bits(lines, value, 8);
    put_clock(lines, ninth);
    tell(lines, event);
}

void put_unclear(struct lines *lines)
{
    show(lines, lines->level ^ BOTH);
    lines->unclear++;
    lines->lost = true;
}
