#include "streams.h"

#include "records.h"

enum { START = 256, STOP = 257, READ_ACK = 258, READ_NACK = 259, RESET_PULSE = 260, SENSOR = 512 };

enum { WRITE = 0x78, READ = 0x79, OTHER_CHIP = 0x7A };

enum { ONE_COMMAND = 0x80, ENDLESS_DATA = 0x40, PAGE_0 = 0x01, PAGE = 0x08,
       SELECT_DO = 0x18, SET_X = 0x80, SET_Y = 0x40 };

enum { COLUMNS = 101, BANKS = 17, LONGEST_MESSAGE = 128 };

static void add(struct stream *stream, unsigned event)
{
    stream->events[stream->length++] = (uint16_t)event;
}

static void add_command(struct stream *stream, unsigned byte)
{
    add(stream, ONE_COMMAND);
    add(stream, byte);
}

static void start(struct stream *stream, unsigned address)
{
    add(stream, START);
    add(stream, address);
}

static void stop(struct stream *stream)
{
    add(stream, STOP);
    stream->ends[stream->messages++] = stream->length;
}

/* ---- Messages ---------------------------------------------------------------------------- */

static void add_data(struct stream *stream, unsigned x, unsigned y, unsigned count)
{
    start(stream, WRITE);
    add_command(stream, PAGE_0);
    add_command(stream, SET_X | x);
    add_command(stream, SET_Y | y);
    add(stream, ENDLESS_DATA);
    for (unsigned i = 0; i < count; i++)
        add(stream, (unsigned)below(256));
    stop(stream);
}

static void add_bank(struct stream *stream)
{
    add_data(stream, 0, (unsigned)below(BANKS), COLUMNS);
}

static void add_cell(struct stream *stream)
{
    add_data(stream, (unsigned)below(COLUMNS), (unsigned)below(BANKS), 1);
}

/* Rows that are sent often, with some values: page, fixed bits, open bits. */
static void add_register(struct stream *stream)
{
    static const struct {
        unsigned page, fixed, open;
    } rows[] = {
        { 1, 0x04, 4 }, { 1, 0x08, 8 }, { 1, 0x10, 8 }, { 2, 0x04, 4 }, { 2, 0x08, 8 },
        { 2, 0x80, 128 }, { 3, 0x40, 4 }, { 3, 0x80, 64 }, { 4, 0x04, 4 }, { 4, 0x08, 4 },
    };
    size_t row = below(sizeof rows / sizeof rows[0]);
    start(stream, WRITE);
    add_command(stream, PAGE_0);
    add_command(stream, PAGE | rows[row].page);
    add_command(stream, rows[row].fixed | (unsigned)below(rows[row].open));
    add_command(stream, PAGE_0);
    stop(stream);
}

static void add_read(struct stream *stream)
{
    start(stream, READ);
    add(stream, READ_ACK);
    add(stream, READ_NACK);
    stop(stream);
}

static void add_other_chip(struct stream *stream)
{
    start(stream, OTHER_CHIP);
    for (unsigned i = 0; i < 16; i++)
        add(stream, (unsigned)below(256));
    stop(stream);
}

static void add_pulse(struct stream *stream)
{
    add(stream, RESET_PULSE);
    stop(stream);
}

static void add_reading(struct stream *stream)
{
    add(stream, SENSOR + (unsigned)below(256));
    stop(stream);
}

static void add_any(struct stream *stream)
{
    switch (below(16)) {
    case 0: add_read(stream); break;
    case 1: add_other_chip(stream); break;
    case 2: add_reading(stream); break;
    case 3: add_pulse(stream); break;
    case 4: case 5: case 6: add_bank(stream); break;
    case 7: case 8: case 9: case 10: add_cell(stream); break;
    default: add_register(stream); break;
    }
}

/* ---- Streams ----------------------------------------------------------------------------- */

static void empty(struct stream *stream)
{
    stream->length = 0;
    stream->messages = 0;
}

static void fill_up(struct stream *stream, void (*add_message)(struct stream *))
{
    while (stream->length + LONGEST_MESSAGE <= MOST_EVENTS)
        add_message(stream);
}

static void fill(struct stream *stream, void (*add_message)(struct stream *))
{
    empty(stream);
    fill_up(stream, add_message);
}

void banks_stream(struct stream *stream)
{
    fill(stream, add_bank);
}

void swapped_stream(struct stream *stream)
{
    empty(stream);
    start(stream, WRITE);
    add_command(stream, PAGE_0);
    add_command(stream, SELECT_DO);
    stop(stream);
    fill_up(stream, add_bank);
}

void cells_stream(struct stream *stream)
{
    fill(stream, add_cell);
}

void commands_stream(struct stream *stream)
{
    fill(stream, add_register);
}

void mixed_stream(struct stream *stream)
{
    fill(stream, add_any);
}

void bus_stream(struct stream *stream)
{
    unsigned pins = 0;
    mixed_stream(stream);
    for (size_t i = 1; i < stream->length; i++)
        if (stream->events[i - 1] == START)
            stream->events[i] = (uint16_t)(WRITE | pins++ % 4 << 1 | (stream->events[i] & 1));
}
