#include "sides.h"

#include "compile.h"
#include "four_chips.h"
#include "glass.h"
#include "limit.h"
#include "model.h"
#include "pcf8820.h"
#include "pixels.h"
#include "pulses.h"
#include "records.h"
#include "uncounted.h"
#include "wires.h"

#include <stdio.h>
#include <stdlib.h>
#include <string.h>

/* What a dashboard does at each refresh: it reads the counts that the chip keeps, or it counts. */
static void read_kept(const uint64_t *record, const uint8_t *memory, uint64_t *n)
{
    (void)memory;
    memcpy(n, record + PCF8820_WORD_PIXELS_0, VALUES * sizeof *n);
}

static void count_afresh(const uint64_t *record, const uint8_t *memory, uint64_t *n)
{
    (void)record;
    model_counts(memory, PLACES, &n[0], &n[1], &n[2], &n[3]);
}

static const struct calls library_calls = {
    .step = pcf8820_step,
    .run = pcf8820_run,
    .bus_step = pcf8820_bus_step,
    .counts = pcf8820_counts,
    .refresh = read_kept,
    .glass = pcf8820_glass,
    .pulse_row = pcf8820_pulse_row,
    .compile = pcf8820_compile,
    .wires = pcf8820_wires,
};

static const struct calls model_calls = {
    .step = model_step,
    .run = model_run,
    .bus_step = model_bus_step,
    .counts = model_counts,
    .refresh = count_afresh,
    .glass = model_glass,
    .pulse_row = model_pulse_row,
    .compile = model_compile,
    .wires = model_wires,
};

static const struct calls limit_calls = { .step = limit_step, .run = limit_run };

static const struct calls uncounted_calls = { .run = uncounted_run };

struct side library = { .calls = &library_calls, .words = WORDS };
struct side model = { .calls = &model_calls, .words = WORDS };
struct side limit = { .calls = &limit_calls, .words = WORDS };
struct side uncounted = { .calls = &uncounted_calls, .words = PCF8820_WORD_PIXELS_0 };

void clear(struct side *side)
{
    model_reset(side->record, WORDS, 0);
    memset(side->memory, 0, sizeof side->memory);
    memset(side->writers, 0, sizeof side->writers);
    memset(side->on_bus, 0, sizeof side->on_bus);
    for (uint64_t pins = 0; pins < CHIPS; pins++)
        model_reset(side->on_bus[pins].record, WORDS, pins);
    side->count = 0;
    model_wires_start(side->wires, WIRE_WORDS);
    memset(side->row, 0, sizeof side->row);
    memset(side->out, 0, sizeof side->out);
    side->sum = 0;
}

void light_up(void)
{
    static const struct {
        size_t word;
        uint64_t value;
    } lit[] = { { W_PD, 0 }, { W_DOF, 0 }, { W_D, 1 }, { W_GS0, 3 }, { W_GS0 + 1, 20 },
                { W_GS0 + 2, 41 }, { W_GS0 + 3, 60 } };
    clear(&library);
    clear(&model);
    for (size_t i = 0; i < sizeof lit / sizeof lit[0]; i++)
        library.record[lit[i].word] = lit[i].value;
    for (size_t i = 0; i < PLACES; i++)
        library.memory[i] = (uint8_t)below(256);
    count_afresh(NULL, library.memory, library.record + PCF8820_WORD_PIXELS_0);
    memcpy(model.record, library.record, sizeof model.record);
    memcpy(model.memory, library.memory, sizeof model.memory);
}

void must_agree(const struct side *other, const char *name)
{
    if (library.sum == other->sum
        && memcmp(library.record, other->record, other->words * sizeof *other->record) == 0
        && memcmp(library.memory, other->memory, sizeof other->memory) == 0
        && memcmp(library.writers, other->writers, sizeof other->writers) == 0
        && memcmp(library.on_bus, other->on_bus, sizeof other->on_bus) == 0
        && library.count == other->count
        && memcmp(library.row, other->row, sizeof other->row) == 0
        && memcmp(library.wires, other->wires, sizeof other->wires) == 0
        && memcmp(library.out, other->out, sizeof other->out) == 0)
        return;
    fprintf(stderr, "bench: %s: the library and another side do not give the same\n", name);
    exit(1);
}
