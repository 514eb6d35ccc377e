#include "glass_calls.h"

#include "glass.h"
#include "pcf8820.h"
#include "pulses.h"
#include "records.h"

#include <stdio.h>
#include <string.h>

struct side {
    struct lent record, memory, out;
};

static struct side model, library;

/* What is lent, and the present call. */
static struct {
    uint64_t record[MOST_WORDS];
    uint8_t memory[PLACES + 1], out[MOST_ROW_BYTES];
    size_t record_len, memory_len, out_len;
    enum where where;
    uint64_t row, column;
} call;

static void print_lent(void)
{
    fprintf(stderr, "  record length %zu, memory length %zu\n", call.record_len, call.memory_len);
    print_record(call.record, call.record_len);
}

static void print_pixel(void)
{
    print_lent();
    fprintf(stderr, "  row: %llu, column: %llu\n", (unsigned long long)call.row,
            (unsigned long long)call.column);
}

static void print_row(void)
{
    print_lent();
    fprintf(stderr, "  row: %llu, row buffer length %zu\n", (unsigned long long)call.row,
            call.out_len);
}

static void map_side(struct side *side)
{
    map_lent(&side->record, sizeof call.record);
    map_lent(&side->memory, sizeof call.memory);
    map_lent(&side->out, sizeof call.out);
}

void glass_start(void)
{
    catch_signals();
    map_side(&model);
    map_side(&library);
}

static void lend_side(struct side *side)
{
    put_lent(&side->record, call.record_len * sizeof call.record[0], call.where);
    put_lent(&side->memory, call.memory_len, call.where);
    fill_lent(&side->memory, call.memory, call.memory_len);
}

void glass_lend(size_t record_len, size_t memory_len, enum where where)
{
    call.record_len = record_len;
    call.memory_len = memory_len;
    call.where = where;
    for (size_t i = 0; i < sizeof call.memory; i++)
        call.memory[i] = (uint8_t)random64();
    lend_side(&model);
    lend_side(&library);
    reset_record(call.record, 0);
    glass_record(call.record);
}

void glass_lend_usual(void)
{
    static enum where where = AT_END;
    glass_lend(RECORD_LEN, PLACES, where);
    where = where == AT_END ? AT_START : AT_END;
}

void glass_record(const uint64_t *words)
{
    memmove(call.record, words, sizeof call.record);
    fill_lent(&model.record, words, model.record.bytes);
    fill_lent(&library.record, words, library.record.bytes);
}

void glass_byte(size_t place, uint8_t byte)
{
    call.memory[place] = byte;
    model.memory.at[place] = byte;
    library.memory.at[place] = byte;
}

static uint64_t compare_call(uint64_t ours, uint64_t theirs)
{
    equal_results(ours, theirs);
    compare_lent("record", sizeof(uint64_t), &model.record, &library.record);
    compare_lent("memory", sizeof(uint8_t), &model.memory, &library.memory);
    if (memcmp(call.record, library.record.at, library.record.bytes) != 0
        || memcmp(call.memory, library.memory.at, library.memory.bytes) != 0)
        fail("the record or the memory was changed");
    count_call();
    return theirs;
}

static void note_pixel(const char *name, uint64_t row, uint64_t column)
{
    next_call(name, print_pixel);
    call.row = row;
    call.column = column;
}

uint64_t compare_glass(uint64_t row, uint64_t column)
{
    note_pixel("glass", row, column);
    uint64_t theirs = pcf8820_glass(words_of(&library.record), call.record_len,
                                    library.memory.at, call.memory_len, row, column);
    uint64_t ours = model_glass(words_of(&model.record), call.record_len,
                                model.memory.at, call.memory_len, row, column);
    return compare_call(ours, theirs);
}

uint64_t compare_place(uint64_t row, uint64_t column)
{
    note_pixel("place", row, column);
    uint64_t theirs = pcf8820_place(words_of(&library.record), call.record_len, row, column);
    uint64_t ours = model_place(words_of(&model.record), call.record_len, row, column);
    return compare_call(ours, theirs);
}

uint64_t compare_pulses(uint64_t row, uint64_t column)
{
    note_pixel("pulses", row, column);
    uint64_t theirs = pcf8820_pulses(words_of(&library.record), call.record_len,
                                     library.memory.at, call.memory_len, row, column);
    uint64_t ours = model_pulses(words_of(&model.record), call.record_len,
                                 model.memory.at, call.memory_len, row, column);
    return compare_call(ours, theirs);
}

void compare_pixel(uint64_t row, uint64_t column)
{
    compare_glass(row, column);
    compare_place(row, column);
    compare_pulses(row, column);
}

static void lend_row(struct side *side)
{
    put_lent(&side->out, call.out_len, call.where);
    fill_lent(&side->out, call.out, call.out_len);
}

uint64_t compare_pulse_row(uint64_t row, size_t out_len)
{
    next_call("pulse_row", print_row);
    call.row = row;
    call.out_len = out_len;
    for (size_t i = 0; i < out_len; i++)
        call.out[i] = (uint8_t)random64();
    lend_row(&model);
    lend_row(&library);
    uint64_t theirs = pcf8820_pulse_row(words_of(&library.record), call.record_len, library.memory.at,
                                        call.memory_len, row, library.out.at, out_len);
    uint64_t ours = model_pulse_row(words_of(&model.record), call.record_len, model.memory.at,
                                    call.memory_len, row, model.out.at, out_len);
    compare_lent("row buffer", sizeof(uint8_t), &model.out, &library.out);
    if (theirs != 0 && memcmp(call.out, library.out.at, out_len) != 0)
        fail("a refused call changed the row buffer");
    return compare_call(ours, theirs);
}

const uint8_t *row_buffer(void)
{
    return library.out.at;
}
