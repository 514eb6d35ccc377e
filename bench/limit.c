#include "limit.h"

#include "bus.h"
#include "limit_commands.h"
#include "words.h"

#include <stdbool.h>
#include <string.h>

enum refusal { BAD_MEMORY = 1, BAD_RECORD, BAD_EVENT, COUNT_FULL, BAD_PIXEL_COUNT = 16 };

struct chip {
    uint64_t now[PHASE]; /* the record's words before the phase */
    uint64_t counts;     /* of pixels, packed */
};

/* The processor's registers hold it from event to event, which needs the functions that it is lent in line. */
struct bus {
    unsigned phase, rs;
};

#define IN_LINE static inline __attribute__((always_inline))

/* ---- Counts of pixels, packed ------------------------------------------------------------ */

/* Four lanes of sixteen bits, the lowest for value 0. Above its count a lane has its highest bit, which a count
 * that goes below 0 takes away. */
#define LANE(value) (UINT64_C(1) << 16 * (value))
#define LANES (LANE(0) + LANE(1) + LANE(2) + LANE(3))
#define HIGHEST_BITS (LANES << 15)

/* What two pixels add. */
#define WITH_EACH(value) LANE(value) + LANE(0), LANE(value) + LANE(1), LANE(value) + LANE(2), LANE(value) + LANE(3)
static const uint64_t two_pixels[16] = { WITH_EACH(0), WITH_EACH(1), WITH_EACH(2), WITH_EACH(3) };

static uint64_t packed(const uint64_t *counts)
{
    return HIGHEST_BITS + counts[0] * LANE(0) + counts[1] * LANE(1) + counts[2] * LANE(2) + counts[3] * LANE(3);
}

static unsigned unpacked(uint64_t counts, int value)
{
    return counts >> 16 * value & 0x7FFF;
}

static uint64_t pixels_of(unsigned byte)
{
    return two_pixels[byte & 15] + two_pixels[byte >> 4];
}

static uint64_t mended(uint64_t counts, unsigned before, unsigned after)
{
    return counts + (pixels_of(after) - pixels_of(before));
}

static bool none_below(uint64_t counts)
{
    return (counts & HIGHEST_BITS) == HIGHEST_BITS;
}

/* Where none is below: a count above the number of pixels reaches the highest bit when this much is added. */
static bool none_above(uint64_t counts)
{
    return ((counts - HIGHEST_BITS + (0x7FFF - PIXELS) * LANES) & HIGHEST_BITS) == 0;
}

static unsigned sum(uint64_t counts)
{
    return unpacked(counts, 0) + unpacked(counts, 1) + unpacked(counts, 2) + unpacked(counts, 3);
}

/* ---- Display bytes ----------------------------------------------------------------------- */

static unsigned reversed(unsigned byte)
{
    static const uint8_t half[16] = { 0, 8, 4, 12, 2, 10, 6, 14, 1, 9, 5, 13, 3, 11, 7, 15 };
    return 16u * half[byte & 15] + half[byte >> 4];
}

static size_t place_at(bool mirrored, size_t x, size_t y)
{
    return COLUMNS * y + (mirrored ? COLUMNS - 1 - x : x);
}

static bool goes_above(const struct chip *chip, const uint8_t *memory, unsigned byte)
{
    unsigned mask = chip->now[Y] == BANKS - 1 ? 0x3F : 0xFF;
    unsigned before = memory[place_at(chip->now[MX], chip->now[X], chip->now[Y])];
    unsigned after = chip->now[DO] ? reversed(byte) : byte;
    uint64_t counts = mended(chip->counts, before & mask, after & mask);
    return none_below(counts) && !none_above(counts);
}

/* A line is the places up to where the address that moves first starts again at 0: a bank, with V 1 a column.
 * Moves x and y to the first place of the next one, and gives it. */
IN_LINE size_t next_line(bool vertical, bool mirrored, size_t *x, size_t *y)
{
    *x = !vertical || *x == COLUMNS - 1 ? 0 : *x + 1;
    *y = vertical || *y == BANKS - 1 ? 0 : *y + 1;
    return place_at(mirrored, *x, *y);
}

/* Stores display bytes up to an event that is none, or to one that would take a count below 0. Gives how many.
 * x and y are looked at once a line: within it the place moves, and what is left of the line is counted down. */
static size_t take_stretch(struct chip *chip, uint8_t *restrict memory, uint64_t *restrict writers,
                           uint64_t number, const uint16_t *restrict events, size_t length)
{
    bool reverse = chip->now[DO], vertical = chip->now[V], mirrored = chip->now[MX];
    uint64_t counts = chip->counts;
    size_t x = chip->now[X], y = chip->now[Y];
    size_t place = place_at(mirrored, x, y);
    size_t along = vertical ? COLUMNS : mirrored ? (size_t)-1 : 1;
    unsigned left = (unsigned)(vertical ? BANKS - y : COLUMNS - x);
    const uint16_t *event = events, *end = events + length;
    for (; event < end && *event < START; event++) {
        unsigned before = memory[place];
        unsigned after = reverse ? reversed(*event) : *event;
        if (place >= COLUMNS * (BANKS - 1)) {
            before &= 0x3F;
            after &= 0x3F;
        }
        uint64_t next = mended(counts, before, after);
        if (!none_below(next))
            break;
        counts = next;
        memory[place] = (uint8_t)after;
        writers[place] = ++number;
        place += along;
        if (--left == 0) {
            left = vertical ? BANKS : COLUMNS;
            place = next_line(vertical, mirrored, &x, &y);
        }
    }
    chip->now[X] = vertical ? x : COLUMNS - left;
    chip->now[Y] = vertical ? BANKS - left : y;
    chip->counts = counts;
    return (size_t)(event - events);
}

/* A byte takes away as many pixels as it brings, so that no count goes above what all of them sum to. Only where
 * that is more than there are pixels is each byte looked at by itself. */
static size_t take_display_bytes(struct chip *chip, uint8_t *memory, uint64_t *writers,
                                 uint64_t number, const uint16_t *events, size_t length)
{
    if (sum(chip->counts) <= PIXELS)
        return take_stretch(chip, memory, writers, number, events, length);
    if (goes_above(chip, memory, events[0]))
        return 0;
    return take_stretch(chip, memory, writers, number, events, 1);
}

/* ---- The bus ----------------------------------------------------------------------------- */

IN_LINE void enter(struct bus *bus, enum phase phase, unsigned rs)
{
    bus->phase = phase;
    bus->rs = rs;
}

IN_LINE uint64_t take_address(struct bus *bus, const uint64_t *now, unsigned byte)
{
    bool addressed = byte >> 1 == (0x3C | now[SA]);
    enter(bus, !addressed ? IGNORING : byte & 1 ? READING : CONTROL, 0);
    return addressed ? ACK : NACK;
}

IN_LINE uint64_t take_control(struct bus *bus, uint64_t *now, unsigned byte)
{
    unsigned rs = byte >> 6 & 1;
    now[LAST_RS] = rs;
    enter(bus, byte & 0x80 ? ONE_BYTE : ENDLESS, rs);
    return ACK;
}

/* A byte in a phase that awaits no content. */
IN_LINE uint64_t take_bus_byte(struct bus *bus, uint64_t *now, unsigned byte)
{
    if (bus->phase == CONTROL)
        return take_control(bus, now, byte);
    if (bus->phase == ADDRESS)
        return take_address(bus, now, byte);
    if (bus->phase == READING || bus->phase == READ_ENDED)
        enter(bus, IGNORING, 0);
    return NACK;
}

IN_LINE uint64_t take_read(struct bus *bus, const uint64_t *now, bool last)
{
    if (bus->phase != READING)
        return BYTE_READ + 255;
    if (last)
        enter(bus, READ_ENDED, 0);
    return BYTE_READ + (now[LAST_RS] ? 255 : now[TR]);
}

/* Registers, status byte, last RS and phase; the pins and the counts of pixels stay. */
IN_LINE void reset(struct bus *bus, uint64_t *now)
{
    memset(now, 0, (OC + 1) * sizeof *now);
    now[PD] = 1;
    now[DOF] = 1;
    now[TR] = 0;
    now[LAST_RS] = 0;
    enter(bus, IDLE, 0);
}

static bool is_listed(unsigned event)
{
    return event <= RESET_PULSE || event - SENSOR < 256;
}

IN_LINE uint64_t take_no_byte(struct bus *bus, uint64_t *now, unsigned event)
{
    if (event == START)
        enter(bus, ADDRESS, 0);
    else if (event == STOP)
        enter(bus, IDLE, 0);
    else if (event == READ_ACK || event == READ_NACK)
        return take_read(bus, now, event == READ_NACK);
    else if (event == RESET_PULSE)
        reset(bus, now);
    else if (!is_listed(event))
        return BAD_EVENT;
    else if (now[SM] && !now[PD])
        now[TR] = event - SENSOR;
    return NOTHING;
}

static bool is_refusal(uint64_t answer)
{
    return answer < NOTHING;
}

/* Takes an event, or more than one where they are display bytes. Gives the answer to it, or a refusal with
 * nothing changed. */
IN_LINE uint64_t take_events(struct chip *chip, struct bus *bus, uint8_t *memory, uint64_t *writers,
                             uint64_t number, const uint16_t *events, size_t length, size_t *taken)
{
    uint64_t answer = ACK;
    unsigned event = events[0];
    bool endless = bus->phase == ENDLESS;
    *taken = 1;
    if (event >= START)
        return take_no_byte(bus, chip->now, event);
    if (!endless && bus->phase != ONE_BYTE)
        return take_bus_byte(bus, chip->now, event);
    if (!bus->rs)
        answer = limit_command(chip->now, event);
    else {
        *taken = take_display_bytes(chip, memory, writers, number, events, endless ? length : 1);
        if (*taken == 0)
            return BAD_PIXEL_COUNT;
    }
    if (!endless)
        enter(bus, CONTROL, 0);
    return answer;
}

/* ---- Words in, words out ----------------------------------------------------------------- */

/* The largest allowed value of each word. */
static const uint64_t largest[WORDS] = {
    [H] = 4, [DO] = 1, [PD] = 1, [V] = 1, [D] = 1, [E] = 1, [MX] = 1, [MY] = 1, [PS] = 1,
    [X] = 100, [Y] = 16, [BS] = 7, [BSH] = 1, [DP] = 7, [PRS] = 1, [HVE] = 1, [S] = 7, [TC] = 7,
    [SM] = 1, [VOP] = 127, [GR] = 3, [GS0] = 63, [GS1] = 63, [GS2] = 63, [GS3] = 63,
    [DOF] = 1, [DM] = 1, [EC] = 1, [OC] = 1,
    [SA] = 3, [TR] = 255, [LAST_RS] = 1, [PHASE] = READ_ENDED, [PHASE_RS] = 1,
    [PIXELS_0] = PIXELS, [PIXELS_1] = PIXELS, [PIXELS_2] = PIXELS, [PIXELS_3] = PIXELS
};

/* A word is too large if it, or its largest value less it, has the highest bit: no branch for each word. */
static bool is_allowed(const uint64_t *record)
{
    uint64_t bits = 0;
    for (int w = 0; w < WORDS; w++)
        bits |= record[w] | (largest[w] - record[w]);
    bool phase_has_rs = record[PHASE] == ONE_BYTE || record[PHASE] == ENDLESS;
    return bits >> 63 == 0 && (phase_has_rs || record[PHASE_RS] == 0);
}

static void load(struct chip *chip, struct bus *bus, const uint64_t *record)
{
    memcpy(chip->now, record, sizeof chip->now);
    enter(bus, (enum phase)record[PHASE], (unsigned)record[PHASE_RS]);
    chip->counts = packed(record + PIXELS_0);
}

static void store(const struct chip *chip, const struct bus *bus, uint64_t *record)
{
    memcpy(record, chip->now, sizeof chip->now);
    record[PHASE] = bus->phase;
    record[PHASE_RS] = bus->rs;
    for (int value = 0; value < VALUES; value++)
        record[PIXELS_0 + value] = unpacked(chip->counts, value);
}

static uint64_t at_entry(const uint64_t *record, size_t record_len, size_t memory_len, size_t writers_len)
{
    if (memory_len != PLACES || writers_len != PLACES)
        return BAD_MEMORY;
    return record_len == WORDS && is_allowed(record) ? 0 : BAD_RECORD;
}

/* ---- The calls --------------------------------------------------------------------------- */

uint64_t limit_step(uint64_t *record, size_t record_len,
                    uint8_t *memory, size_t memory_len,
                    uint64_t *writers, size_t writers_len,
                    uint64_t *count, uint16_t event)
{
    struct chip chip;
    struct bus bus;
    size_t taken;
    uint64_t refusal = at_entry(record, record_len, memory_len, writers_len);
    if (refusal != 0)
        return refusal;
    if (*count == UINT64_MAX)
        return is_listed(event) ? COUNT_FULL : BAD_EVENT;
    load(&chip, &bus, record);
    uint64_t answer = take_events(&chip, &bus, memory, writers, *count, &event, 1, &taken);
    if (is_refusal(answer))
        return answer;
    store(&chip, &bus, record);
    ++*count;
    return answer;
}

/* How many of the events the count has room for. */
static size_t room(uint64_t count, size_t length)
{
    return UINT64_MAX - count < length ? (size_t)(UINT64_MAX - count) : length;
}

uint64_t limit_run(uint64_t *record, size_t record_len,
                   uint8_t *memory, size_t memory_len,
                   uint64_t *writers, size_t writers_len,
                   uint64_t *count, const uint16_t *events, size_t events_len,
                   uint64_t *done, uint64_t *unknown, uint64_t *out_of_range)
{
    struct chip chip;
    struct bus bus;
    size_t taken, i = 0;
    uint64_t unknown_commands = 0, commands_out_of_range = 0;
    size_t end = room(*count, events_len);

    *done = *unknown = *out_of_range = 0;
    uint64_t refusal = at_entry(record, record_len, memory_len, writers_len);
    if (refusal != 0)
        return refusal;
    load(&chip, &bus, record);
    for (; i < end; i += taken) {
        uint64_t answer = take_events(&chip, &bus, memory, writers, *count + i, events + i, end - i, &taken);
        if (is_refusal(answer)) {
            refusal = answer;
            break;
        }
        unknown_commands += answer == UNKNOWN;
        commands_out_of_range += answer == OUT_OF_RANGE;
    }
    if (i == end && end < events_len)
        refusal = is_listed(events[i]) ? COUNT_FULL : BAD_EVENT;
    store(&chip, &bus, record);
    *count += i;
    *done = i;
    *unknown = unknown_commands;
    *out_of_range = commands_out_of_range;
    return refusal;
}
