#include "compile.h"

#include "list.h"
#include "model.h"
#include "plain.h"
#include "words.h"

#include <string.h>

enum refusal { BAD_RECORD = 2, TOO_SHORT = 10 };

enum event { START = 256, STOP = 257 };

enum { ONE_COMMAND = 0x80, ENDLESS_DATA = 0x40 };          /* control bytes */
enum { PAGE_0 = 0x01, PAGE = 0x08, SET_Y = 0x40, SET_X = 0x80 }; /* commands */
enum { SELECT_GREY = 0x40, GREY_PAGE = 3 };

enum { CLOCKS_OF_A_BYTE = 9, MOST_FIELDS = 3 };

/* A row of the instruction table: the bits that are fixed, and the lowest bit of each register. */
struct row {
    unsigned page;
    unsigned fixed;
    unsigned fields;
    struct {
        unsigned word, bit;
    } field[MOST_FIELDS];
};

static const struct row rows[] = {
    { 0, 0x10, 3, { { DO, 3 }, { PD, 2 }, { V, 1 } } },
    { 1, 0x04, 2, { { D, 1 }, { E, 0 } } },
    { 1, 0x08, 3, { { MX, 2 }, { MY, 1 }, { PS, 0 } } },
    { 1, 0x10, 1, { { BS, 0 } } },
    { 1, 0x38, 1, { { BSH, 0 } } },
    { 1, 0x40, 1, { { DP, 0 } } },
    { 2, 0x04, 2, { { PRS, 1 }, { HVE, 0 } } },
    { 2, 0x08, 1, { { S, 0 } } },
    { 2, 0x10, 1, { { TC, 0 } } },
    { 2, 0x20, 1, { { SM, 0 } } },
    { 2, 0x80, 1, { { VOP, 0 } } },
    { GREY_PAGE, 0x80, 1, { { GS0, 0 } } },
    { GREY_PAGE, 0x80, 1, { { GS1, 0 } } },
    { GREY_PAGE, 0x80, 1, { { GS2, 0 } } },
    { GREY_PAGE, 0x80, 1, { { GS3, 0 } } },
    { 4, 0x04, 2, { { DOF, 1 }, { DM, 0 } } },
    { 4, 0x08, 2, { { EC, 1 }, { OC, 0 } } },
};

/* The stream as far as it has come. Where out is NULL it is counted and not kept. */
struct stream {
    uint16_t *out;
    uint64_t length;
    uint64_t bytes;
};

static void emit(struct stream *stream, unsigned event)
{
    if (stream->out != NULL)
        stream->out[stream->length] = (uint16_t)event;
    stream->length++;
    if (event < 256)
        stream->bytes++;
}

/* The same display byte, this many times. */
static void emit_bytes(struct stream *stream, unsigned byte, unsigned count)
{
    if (stream->out != NULL)
        for (unsigned i = 0; i < count; i++)
            stream->out[stream->length + i] = (uint16_t)byte;
    stream->length += count;
    stream->bytes += count;
}

static void emit_command(struct stream *stream, unsigned byte)
{
    emit(stream, ONE_COMMAND);
    emit(stream, byte);
}

/* Up to page 0, from any page and any phase. */
static void emit_start(struct stream *stream, const uint64_t *record)
{
    emit(stream, START);
    emit(stream, 0x78 | (unsigned)record[SA] << 1);
    emit_command(stream, PAGE_0);
}

/* ---- Cells ------------------------------------------------------------------------------- */

static unsigned reversed(unsigned byte)
{
    unsigned result = 0;
    for (unsigned bit = 0; bit < 8; bit++)
        if (byte >> bit & 1)
            result |= 0x80u >> bit;
    return result;
}

static void emit_run(struct stream *stream, const uint64_t *record, unsigned x, unsigned y,
                     unsigned count, unsigned byte)
{
    unsigned sent = record[DO] ? reversed(byte) : byte;
    emit_start(stream, record);
    emit_command(stream, SET_X | x);
    emit_command(stream, SET_Y | y);
    emit(stream, ENDLESS_DATA);
    emit_bytes(stream, sent, count);
    emit(stream, STOP);
}

static void emit_fill(struct stream *stream, const uint64_t *record, const struct line *line)
{
    unsigned x = record[MX] ? COLUMNS - 1 - line->c1 : line->c0;
    unsigned columns = line->c1 - line->c0 + 1;
    unsigned banks = line->b1 - line->b0 + 1;
    if (record[V])
        for (unsigned i = 0; i < columns; i++)
            emit_run(stream, record, x + i, line->b0, banks, line->byte);
    else
        for (unsigned i = 0; i < banks; i++)
            emit_run(stream, record, x, line->b0 + i, columns, line->byte);
}

/* ---- Registers --------------------------------------------------------------------------- */

static const struct row *row_of(unsigned word)
{
    for (size_t i = 0; i < sizeof rows / sizeof rows[0]; i++)
        for (unsigned f = 0; f < rows[i].fields; f++)
            if (rows[i].field[f].word == word)
                return &rows[i];
    return NULL;
}

/* The row with every register of it as it stands in the record. */
static unsigned encoded(const struct row *row, const uint64_t *record)
{
    unsigned byte = row->fixed;
    for (unsigned f = 0; f < row->fields; f++)
        byte |= (unsigned)record[row->field[f].word] << row->field[f].bit;
    return byte;
}

/* The record is the one after the line. */
static void emit_set(struct stream *stream, const uint64_t *record, unsigned word)
{
    const struct row *row = row_of(word);
    emit_start(stream, record);
    if (row->page != 0)
        emit_command(stream, PAGE | row->page);
    if (row->page == GREY_PAGE)
        emit_command(stream, SELECT_GREY | (unsigned)record[GR]);
    emit_command(stream, encoded(row, record));
    if (row->page != 0)
        emit_command(stream, PAGE_0);
    emit(stream, STOP);
}

/* ---- The list ---------------------------------------------------------------------------- */

/* A list that is not refused. The registers are tracked in a copy of the record. */
static void emit_list(struct stream *stream, const uint64_t *record,
                      const uint8_t *text, size_t text_len)
{
    struct list list = { .text = text, .length = text_len };
    struct line line;
    uint64_t tracked[WORDS];

    memcpy(tracked, record, sizeof tracked);
    while (!list_ended(&list)) {
        list_next(&list, &line);
        plain_registers(&line, tracked);
        if (line.fills)
            emit_fill(stream, tracked, &line);
        else
            emit_set(stream, tracked, line.word);
    }
}

uint64_t model_compile(const uint64_t *record, size_t record_len,
                       const uint8_t *text, size_t text_len,
                       uint16_t *out, size_t out_len,
                       uint64_t *length, uint64_t *clocks, uint64_t *line)
{
    struct stream counted = { .out = NULL };
    struct stream written = { .out = out };

    *length = 0;
    *clocks = 0;
    *line = 0;
    if (!model_allowed(record, record_len))
        return BAD_RECORD;
    uint64_t refusal = list_refusal(text, text_len, line);
    if (refusal != 0)
        return refusal;
    emit_list(&counted, record, text, text_len);
    *length = counted.length;
    if (out_len < counted.length)
        return TOO_SHORT;
    *clocks = CLOCKS_OF_A_BYTE * counted.bytes;
    emit_list(&written, record, text, text_len);
    return 0;
}
