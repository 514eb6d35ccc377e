#include "model.h"

#include "bus.h"
#include "display.h"
#include "words.h"

#include <string.h>

enum { LAST_PAGE = 4 };

/* In the command table only: the grey register that GR selects. */
enum { GS = WORDS };

enum refusal { BAD_MEMORY = 1, BAD_RECORD, BAD_EVENT, COUNT_FULL, BAD_PIXEL_COUNT = 16 };

/* The largest allowed value of each word. */
static const uint16_t limit[] = {
    [H] = 4, [DO] = 1, [PD] = 1, [V] = 1, [D] = 1, [E] = 1, [MX] = 1, [MY] = 1, [PS] = 1,
    [X] = 100, [Y] = 16, [BS] = 7, [BSH] = 1, [DP] = 7, [PRS] = 1, [HVE] = 1, [S] = 7, [TC] = 7,
    [SM] = 1, [VOP] = 127, [GR] = 3, [GS0] = 63, [GS1] = 63, [GS2] = 63, [GS3] = 63,
    [DOF] = 1, [DM] = 1, [EC] = 1, [OC] = 1,
    [SA] = 3, [TR] = 255, [LAST_RS] = 1, [PHASE] = READ_ENDED, [PHASE_RS] = 1,
    [PIXELS_0] = PIXELS, [PIXELS_1] = PIXELS, [PIXELS_2] = PIXELS, [PIXELS_3] = PIXELS,
    [GS] = 63
};

/* ---- The instruction table --------------------------------------------------------------- */

enum { EVERY_PAGE = -1, MOST_FIELDS = 3 };

/* A row of the table: 0 and 1 must stand so in the byte, a letter is a bit of a field. fields[i]
 * goes with letters[i]; a field whose letter is not in the pattern becomes 0. */
struct row {
    int page;
    const char *pattern;
    const char *letters;
    uint8_t fields[MOST_FIELDS];
};

static const struct row rows[] = {
    { EVERY_PAGE, "00000000", "", { 0 } },             /* no operation */
    { EVERY_PAGE, "00000001", "h", { H } },            /* back to page 0 */

    { 0, "00001hhh", "h", { H } },                     /* select a page */
    { 0, "0001dpv0", "dpv", { DO, PD, V } },           /* data order, power-down, address mode */
    { 0, "010yyyyy", "y", { Y } },                     /* bank address */
    { 0, "1xxxxxxx", "x", { X } },                     /* column address */

    { 1, "000001de", "de", { D, E } },                 /* display mode */
    { 1, "00001xyp", "xyp", { MX, MY, PS } },          /* mirroring, partial screen */
    { 1, "00010bbb", "b", { BS } },                    /* bias system */
    { 1, "0011100b", "b", { BSH } },                   /* bias system 1/2 */
    { 1, "01000ppp", "p", { DP } },                    /* display part */

    { 2, "000001ph", "ph", { PRS, HVE } },             /* programming range, generator */
    { 2, "00001sss", "s", { S } },                     /* voltage multiplier */
    { 2, "00010ttt", "t", { TC } },                    /* temperature coefficient */
    { 2, "0010000m", "m", { SM } },                    /* temperature measurement */
    { 2, "1vvvvvvv", "v", { VOP } },                   /* display voltage */

    { 3, "010000rr", "r", { GR } },                    /* select a grey register */
    { 3, "10gggggg", "g", { GS } },                    /* level of the selected one */

    { 4, "000001od", "od", { DOF, DM } },              /* display off, direct drive */
    { 4, "000010eo", "eo", { EC, OC } },               /* clock, oscillator calibration */
    { 4, "010tb000", "", { 0 } },                      /* row block swapping: nothing kept */
};

enum { TABLE_ROWS = sizeof rows / sizeof rows[0] };

/* A command byte's answer, and what it does: it gives these fields these values. */
struct effect {
    uint16_t answer;
    uint8_t fields;
    uint8_t field[MOST_FIELDS];
    uint8_t value[MOST_FIELDS];
};

static struct effect effects[LAST_PAGE + 1][256];
static bool effects_ready;

static bool matches(const char *pattern, unsigned byte)
{
    for (int i = 0; i < 8; i++) {
        char bit = (byte >> (7 - i)) & 1 ? '1' : '0';
        if ((pattern[i] == '0' || pattern[i] == '1') && pattern[i] != bit)
            return false;
    }
    return true;
}

static bool takes(const struct row *row, int page, unsigned byte)
{
    return (row->page == page || row->page == EVERY_PAGE) && matches(row->pattern, byte);
}

/* The bits of the byte that stand under this letter, as a number. */
static uint8_t bits_under(const char *pattern, char letter, unsigned byte)
{
    unsigned value = 0;
    for (int i = 0; i < 8; i++)
        if (pattern[i] == letter)
            value = value << 1 | ((byte >> (7 - i)) & 1);
    return (uint8_t)value;
}

/* A value above the field's limit leaves the field as it is, and is told. */
static void add_effect(struct effect *effect, const struct row *row, unsigned byte)
{
    effect->answer = TAKEN;
    for (size_t i = 0; row->letters[i] != '\0'; i++) {
        uint8_t value = bits_under(row->pattern, row->letters[i], byte);
        if (value > limit[row->fields[i]]) {
            effect->answer = OUT_OF_RANGE;
            continue;
        }
        effect->field[effect->fields] = row->fields[i];
        effect->value[effect->fields] = value;
        effect->fields++;
    }
}

static void fill_effects(void)
{
    for (int page = 0; page <= LAST_PAGE; page++)
        for (unsigned byte = 0; byte < 256; byte++) {
            effects[page][byte].answer = UNKNOWN;
            for (int r = 0; r < TABLE_ROWS; r++)
                if (takes(&rows[r], page, byte))
                    add_effect(&effects[page][byte], &rows[r], byte);
        }
    effects_ready = true;
}

int model_row(int page, unsigned byte)
{
    int r = 0;
    while (r < TABLE_ROWS && !takes(&rows[r], page, byte))
        r++;
    return r;
}

static uint64_t take_command(struct chip *chip, uint8_t byte)
{
    const struct effect *effect = &effects[chip->now[H]][byte];
    for (int i = 0; i < effect->fields; i++) {
        unsigned field = effect->field[i];
        if (field == GS)
            field = GS0 + chip->now[GR];
        chip->now[field] = effect->value[i];
    }
    return effect->answer;
}

/* ---- Bus events -------------------------------------------------------------------------- */

static void enter(struct chip *chip, enum phase phase, uint8_t rs)
{
    chip->now[PHASE] = (uint16_t)phase;
    chip->now[PHASE_RS] = rs;
}

static uint64_t take_address(struct chip *chip, uint8_t byte)
{
    if (byte >> 1 != (0x3C | chip->now[SA])) {
        enter(chip, IGNORING, 0);
        return NACK;
    }
    enter(chip, byte & 1 ? READING : CONTROL, 0);
    return ACK;
}

static uint64_t take_control(struct chip *chip, uint8_t byte)
{
    uint8_t rs = (byte >> 6) & 1;
    chip->now[LAST_RS] = rs;
    enter(chip, byte & 0x80 ? ONE_BYTE : ENDLESS, rs);
    return ACK;
}

static uint64_t take_written(struct chip *chip, uint8_t byte)
{
    bool rs = chip->now[PHASE_RS];
    if (chip->now[PHASE] == ONE_BYTE)
        enter(chip, CONTROL, 0);
    return rs ? take_display_byte(chip, byte) : take_command(chip, byte);
}

static uint64_t take_byte(struct chip *chip, uint8_t byte)
{
    switch (chip->now[PHASE]) {
    case ADDRESS:
        return take_address(chip, byte);
    case CONTROL:
        return take_control(chip, byte);
    case ONE_BYTE:
    case ENDLESS:
        return take_written(chip, byte);
    case READING:
    case READ_ENDED:
        enter(chip, IGNORING, 0);
        return NACK;
    default: /* idle, ignoring */
        return NACK;
    }
}

static uint64_t take_read(struct chip *chip, bool last)
{
    if (chip->now[PHASE] != READING)
        return BYTE_READ + 255;
    if (last)
        enter(chip, READ_ENDED, 0);
    return BYTE_READ + (chip->now[LAST_RS] ? 255u : chip->now[TR]);
}

/* Registers, status byte, last RS and phase; the pins and the counts of pixels stay. */
static void reset(struct chip *chip)
{
    for (int w = H; w <= OC; w++)
        chip->now[w] = 0;
    chip->now[PD] = 1;
    chip->now[DOF] = 1;
    chip->now[TR] = 0;
    chip->now[LAST_RS] = 0;
    enter(chip, IDLE, 0);
}

static void take_reading(struct chip *chip, uint8_t reading)
{
    if (chip->now[SM] && !chip->now[PD])
        chip->now[TR] = reading;
}

bool model_listed(uint16_t event)
{
    return event <= RESET_PULSE || (event >= SENSOR && event < SENSOR + 256);
}

static bool is_display_byte(const struct chip *chip, uint16_t event)
{
    bool written = chip->now[PHASE] == ONE_BYTE || chip->now[PHASE] == ENDLESS;
    return event < 256 && written && chip->now[PHASE_RS] == 1;
}

/* A refusal, with nothing changed, or an answer. Nothing refuses an event once its pixels fit, so that
 * the counts are mended where they are looked at. */
static uint64_t take_event(struct chip *chip, uint16_t event)
{
    if (!model_listed(event))
        return BAD_EVENT;
    if (chip->count == UINT64_MAX)
        return COUNT_FULL;
    if (is_display_byte(chip, event) && !mend_counts(chip, (uint8_t)event))
        return BAD_PIXEL_COUNT;
    chip->count++;

    if (event < 256)
        return take_byte(chip, (uint8_t)event);
    if (event == READ_ACK || event == READ_NACK)
        return take_read(chip, event == READ_NACK);

    if (event == START)
        enter(chip, ADDRESS, 0);
    else if (event == STOP)
        enter(chip, IDLE, 0);
    else if (event == RESET_PULSE)
        reset(chip);
    else
        take_reading(chip, (uint8_t)(event - SENSOR));
    return NOTHING;
}

static bool is_refusal(uint64_t result)
{
    return result < NOTHING;
}

/* ---- Words in, words out ------------------------------------------------------------------ */

static bool load(struct chip *chip, const uint64_t *record, size_t record_len)
{
    if (record_len != WORDS)
        return false;
    for (int w = 0; w < WORDS; w++) {
        if (record[w] > limit[w])
            return false;
        chip->now[w] = (uint16_t)record[w];
    }
    bool phase_has_rs = chip->now[PHASE] == ONE_BYTE || chip->now[PHASE] == ENDLESS;
    return phase_has_rs || chip->now[PHASE_RS] == 0;
}

static void store(const struct chip *chip, uint64_t *record)
{
    for (int w = 0; w < WORDS; w++)
        record[w] = chip->now[w];
}

/* ---- The calls ---------------------------------------------------------------------------- */

bool model_allowed(const uint64_t *record, size_t record_len)
{
    struct chip chip;
    return load(&chip, record, record_len);
}

bool model_pixels_fit(const uint64_t *record, uint8_t *memory, uint16_t event)
{
    struct chip chip = { .memory = memory };
    load(&chip, record, WORDS);
    return !is_display_byte(&chip, event) || mend_counts(&chip, (uint8_t)event);
}

uint64_t model_reset(uint64_t *record, size_t record_len, uint64_t pins)
{
    struct chip chip;
    if (record_len != WORDS || pins > limit[SA])
        return BAD_RECORD;
    memset(&chip, 0, sizeof chip);
    reset(&chip);
    chip.now[SA] = (uint16_t)pins;
    chip.now[PIXELS_0] = PIXELS;
    store(&chip, record);
    return 0;
}

uint64_t model_step(uint64_t *record, size_t record_len,
                    uint8_t *memory, size_t memory_len,
                    uint64_t *writers, size_t writers_len,
                    uint64_t *count, uint16_t event)
{
    struct chip chip = { .count = *count, .memory = memory, .writers = writers };
    if (!effects_ready)
        fill_effects();
    if (memory_len != PLACES || writers_len != PLACES)
        return BAD_MEMORY;
    if (!load(&chip, record, record_len))
        return BAD_RECORD;
    uint64_t result = take_event(&chip, event);
    if (!is_refusal(result)) {
        store(&chip, record);
        *count = chip.count;
    }
    return result;
}

uint64_t model_run(uint64_t *record, size_t record_len,
                   uint8_t *memory, size_t memory_len,
                   uint64_t *writers, size_t writers_len,
                   uint64_t *count, const uint16_t *events, size_t events_len,
                   uint64_t *done, uint64_t *unknown, uint64_t *out_of_range)
{
    struct chip chip = { .count = *count, .memory = memory, .writers = writers };
    uint64_t refusal = 0;
    uint64_t unknown_commands = 0;
    uint64_t commands_out_of_range = 0;
    size_t i;

    if (!effects_ready)
        fill_effects();
    *done = 0;
    *unknown = 0;
    *out_of_range = 0;
    if (memory_len != PLACES || writers_len != PLACES)
        return BAD_MEMORY;
    if (!load(&chip, record, record_len))
        return BAD_RECORD;
    for (i = 0; i < events_len; i++) {
        uint64_t result = take_event(&chip, events[i]);
        if (is_refusal(result)) {
            refusal = result;
            break;
        }
        unknown_commands += result == UNKNOWN;
        commands_out_of_range += result == OUT_OF_RANGE;
    }
    store(&chip, record);
    *count = chip.count;
    *done = i;
    *unknown = unknown_commands;
    *out_of_range = commands_out_of_range;
    return refusal;
}
