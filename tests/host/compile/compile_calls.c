#include "compile_calls.h"

#include "compile.h"
#include "harness.h"
#include "pcf8820.h"
#include "records.h"

#include <stdio.h>
#include <string.h>

/* No event: it fills the output before the call. */
enum { UNWRITTEN = 0xC3 };

enum { TOO_SHORT = 10 };

struct side {
    struct lent record, text, out, length, clocks, line;
};

static struct side model, library;

/* The present call, for the message at a difference. */
static struct {
    uint64_t record[MOST_WORDS];
    size_t record_len;
    const struct text *text;
    size_t room;
} call;

static void print_byte(unsigned byte)
{
    if (byte == '\n')
        fprintf(stderr, "\\n\n    ");
    else if (byte == '\t')
        fprintf(stderr, "\\t");
    else if (byte < ' ' || byte > '~')
        fprintf(stderr, "\\x%02x", byte);
    else
        fputc((int)byte, stderr);
}

static void print_list(void)
{
    enum { MOST = 3000 };
    print_record(call.record, call.record_len);
    fprintf(stderr, "  record length %zu, room for %zu events, text of %zu bytes:\n    ",
            call.record_len, call.room, call.text->length);
    for (size_t i = 0; i < call.text->length && i < MOST; i++)
        print_byte(call.text->bytes[i]);
    fprintf(stderr, call.text->length > MOST ? "...\n" : "\n");
}

/* ---- The call ---------------------------------------------------------------------------- */

static void map_side(struct side *side)
{
    map_lent(&side->record, MOST_WORDS * sizeof(uint64_t));
    map_lent(&side->text, MOST_TEXT);
    map_lent(&side->out, MOST_OUT * sizeof(uint16_t));
    map_lent(&side->length, sizeof(uint64_t));
    map_lent(&side->clocks, sizeof(uint64_t));
    map_lent(&side->line, sizeof(uint64_t));
}

void compile_start(void)
{
    map_side(&model);
    map_side(&library);
}

/* Some calls at the start of the pages, then some at their end. */
static enum where next_where(void)
{
    static unsigned calls;
    return calls++ / 16 % 2 ? AT_START : AT_END;
}

static void put_number(struct lent *lent, uint64_t number, enum where where)
{
    put_lent(lent, sizeof number, where);
    fill_lent(lent, &number, sizeof number);
}

static void lend_side(struct side *side, enum where where, uint64_t noise)
{
    put_lent(&side->record, call.record_len * sizeof(uint64_t), where);
    fill_lent(&side->record, call.record, call.record_len * sizeof(uint64_t));
    put_lent(&side->text, call.text->length, where);
    fill_lent(&side->text, call.text->bytes, call.text->length);
    put_lent(&side->out, call.room * sizeof(uint16_t), where);
    memset(side->out.at, UNWRITTEN, side->out.bytes);
    put_number(&side->length, noise, where);
    put_number(&side->clocks, noise + 1, where);
    put_number(&side->line, noise + 2, where);
}

static void compare_sides(uint64_t ours, uint64_t theirs)
{
    equal_results(ours, theirs);
    compare_lent("length", sizeof(uint64_t), &model.length, &library.length);
    compare_lent("clocks", sizeof(uint64_t), &model.clocks, &library.clocks);
    compare_lent("line", sizeof(uint64_t), &model.line, &library.line);
    compare_lent("output", sizeof(uint16_t), &model.out, &library.out);
    compare_lent("record", sizeof(uint64_t), &model.record, &library.record);
    compare_lent("text", sizeof(uint8_t), &model.text, &library.text);
    count_call();
}

uint64_t compare_compile(const uint64_t *words, size_t record_len, const struct text *text,
                         size_t room, struct compiled *compiled)
{
    enum where where = next_where();
    uint64_t noise = random64();

    next_call("compile", print_list);
    memcpy(call.record, words, sizeof call.record);
    call.record_len = record_len;
    call.text = text;
    call.room = room;
    lend_side(&model, where, noise);
    lend_side(&library, where, noise);
    uint64_t theirs = pcf8820_compile(words_of(&library.record), record_len,
                                      library.text.at, text->length, events_of(&library.out), room,
                                      words_of(&library.length), words_of(&library.clocks),
                                      words_of(&library.line));
    uint64_t ours = model_compile(words_of(&model.record), record_len,
                                  model.text.at, text->length, events_of(&model.out), room,
                                  words_of(&model.length), words_of(&model.clocks),
                                  words_of(&model.line));
    compare_sides(ours, theirs);
    compiled->length = *words_of(&library.length);
    compiled->clocks = *words_of(&library.clocks);
    compiled->line = *words_of(&library.line);
    compiled->events = events_of(&library.out);
    return theirs;
}

/* ---- With the room that is needed -------------------------------------------------------- */

size_t needed(const uint64_t *words, const struct text *text)
{
    uint64_t length, clocks, line;
    uint64_t result = model_compile(words, RECORD_LEN, text->bytes, text->length, NULL, 0,
                                    &length, &clocks, &line);
    return result == TOO_SHORT ? (size_t)length : 0;
}

uint64_t compare_list(const uint64_t *words, const struct text *text, struct compiled *compiled)
{
    size_t room = needed(words, text) + (size_t)below(3);
    return compare_compile(words, RECORD_LEN, text, room, compiled);
}

void compare_rooms(const uint64_t *words, const struct text *text)
{
    struct compiled compiled;
    size_t need = needed(words, text);
    for (size_t room = need < 2 ? 0 : need - 2; room <= need + 2; room++)
        compare_compile(words, RECORD_LEN, text, room, &compiled);
    compare_compile(words, RECORD_LEN, text, 0, &compiled);
    compare_compile(words, RECORD_LEN, text, (size_t)below(need + 1), &compiled);
    compare_compile(words, RECORD_LEN, text, need + (size_t)below(5000), &compiled);
}

void expect_refusal(const uint64_t *words, const struct text *text, uint64_t result, uint64_t line)
{
    struct compiled compiled;
    uint64_t given = compare_list(words, text, &compiled);
    if (given != result || compiled.line != line)
        fail("%llu at line %llu were given, %llu at line %llu are right",
             (unsigned long long)given, (unsigned long long)compiled.line,
             (unsigned long long)result, (unsigned long long)line);
}
