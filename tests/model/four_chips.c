#include "four_chips.h"

#include "bus.h"
#include "model.h"
#include "words.h"

enum { CHIPS = 4, LAST_PINS = 3 };

enum refusal {
    BAD_MEMORY = 1, BAD_RECORD = 2, BAD_EVENT = 3, COUNT_FULL = 4, BAD_BUS = 12, BAD_PINS = 13,
    BAD_PIXEL_COUNT = 16
};

struct chip {
    uint64_t *record;
    size_t record_len;
    uint8_t *memory;
    size_t memory_len;
    uint64_t *writers;
    size_t writers_len;
};

/* ---- What is refused --------------------------------------------------------------------- */

static bool good_memories(const struct chip *chips)
{
    for (int c = 0; c < CHIPS; c++)
        if (chips[c].memory_len != PLACES || chips[c].writers_len != PLACES)
            return false;
    return true;
}

static bool good_records(const struct chip *chips)
{
    for (int c = 0; c < CHIPS; c++)
        if (!model_allowed(chips[c].record, chips[c].record_len))
            return false;
    return true;
}

static bool pins_differ(const struct chip *chips)
{
    for (int c = 0; c < CHIPS; c++)
        for (int other = 0; other < c; other++)
            if (chips[c].record[SA] == chips[other].record[SA])
                return false;
    return true;
}

/* Sets of phases: phase p is bit p. */
enum {
    ALL_IDLE = 1 << IDLE,
    ALL_AWAITING = 1 << ADDRESS,
    ALL_IGNORING = 1 << IGNORING,
    PAST_ADDRESS = 1 << CONTROL | 1 << ONE_BYTE | 1 << ENDLESS | 1 << READING | 1 << READ_ENDED
};

static bool phases_fit(const struct chip *chips)
{
    int past = 0;
    int others = 0;
    for (int c = 0; c < CHIPS; c++) {
        int phase = 1 << chips[c].record[PHASE];
        if (phase & PAST_ADDRESS)
            past++;
        else
            others |= phase;
    }
    if (past == 0)
        return others == ALL_IDLE || others == ALL_AWAITING || others == ALL_IGNORING;
    return past == 1 && others == ALL_IGNORING;
}

static bool is_reading(uint16_t event)
{
    return event >= SENSOR && event < SENSOR + 256;
}

/* Only the chip that is past its address can be written to. To the others the byte is no display byte: they
 * take it without moving a count, so that it is right to ask all four. */
static bool pixels_fit(const struct chip *chips, uint16_t event)
{
    for (int c = 0; c < CHIPS; c++)
        if (!model_pixels_fit(chips[c].record, chips[c].memory, event))
            return false;
    return true;
}

static uint64_t refusal_of(const struct chip *chips, uint64_t count, uint16_t event, uint64_t pins)
{
    if (!good_memories(chips))
        return BAD_MEMORY;
    if (!good_records(chips))
        return BAD_RECORD;
    if (!pins_differ(chips) || !phases_fit(chips))
        return BAD_BUS;
    if (!model_listed(event))
        return BAD_EVENT;
    if (is_reading(event) && pins > LAST_PINS)
        return BAD_PINS;
    if (count == UINT64_MAX)
        return COUNT_FULL;
    if (!pixels_fit(chips, event))
        return BAD_PIXEL_COUNT;
    return 0;
}

/* ---- What is done ------------------------------------------------------------------------ */

/* The count is that of the bus, so the chip counts on a copy of it. */
static uint64_t give(const struct chip *chip, uint64_t count, uint16_t event)
{
    return model_step(chip->record, chip->record_len, chip->memory, chip->memory_len,
                      chip->writers, chip->writers_len, &count, event);
}

/* Acknowledged if a chip does so; one that gets a command says more. */
static uint64_t give_byte(const struct chip *chips, uint64_t count, uint16_t event)
{
    bool acknowledged = false;
    uint64_t command = NOTHING;
    for (int c = 0; c < CHIPS; c++) {
        uint64_t answer = give(&chips[c], count, event);
        if (answer == ACK)
            acknowledged = true;
        else if (answer != NACK)
            command = answer;
    }
    if (command != NOTHING)
        return command;
    return acknowledged ? ACK : NACK;
}

static uint64_t give_read(const struct chip *chips, uint64_t count, uint16_t event)
{
    uint64_t byte = BYTE_READ + 255;
    for (int c = 0; c < CHIPS; c++) {
        bool reading = chips[c].record[PHASE] == READING;
        uint64_t answer = give(&chips[c], count, event);
        if (reading)
            byte = answer;
    }
    return byte;
}

static uint64_t give_reading(const struct chip *chips, uint64_t count, uint16_t event, uint64_t pins)
{
    for (int c = 0; c < CHIPS; c++)
        if (chips[c].record[SA] == pins)
            give(&chips[c], count, event);
    return NOTHING;
}

/* START, STOP, reset pulse. */
static uint64_t give_all(const struct chip *chips, uint64_t count, uint16_t event)
{
    for (int c = 0; c < CHIPS; c++)
        give(&chips[c], count, event);
    return NOTHING;
}

static uint64_t answer_of(const struct chip *chips, uint64_t count, uint16_t event, uint64_t pins)
{
    if (event < 256)
        return give_byte(chips, count, event);
    if (event == READ_ACK || event == READ_NACK)
        return give_read(chips, count, event);
    if (is_reading(event))
        return give_reading(chips, count, event, pins);
    return give_all(chips, count, event);
}

uint64_t model_bus_step(uint64_t *record0, size_t record0_len,
                        uint8_t *memory0, size_t memory0_len,
                        uint64_t *writers0, size_t writers0_len,
                        uint64_t *record1, size_t record1_len,
                        uint8_t *memory1, size_t memory1_len,
                        uint64_t *writers1, size_t writers1_len,
                        uint64_t *record2, size_t record2_len,
                        uint8_t *memory2, size_t memory2_len,
                        uint64_t *writers2, size_t writers2_len,
                        uint64_t *record3, size_t record3_len,
                        uint8_t *memory3, size_t memory3_len,
                        uint64_t *writers3, size_t writers3_len,
                        uint64_t *count, uint16_t event, uint64_t pins)
{
    const struct chip chips[CHIPS] = {
        { record0, record0_len, memory0, memory0_len, writers0, writers0_len },
        { record1, record1_len, memory1, memory1_len, writers1, writers1_len },
        { record2, record2_len, memory2, memory2_len, writers2, writers2_len },
        { record3, record3_len, memory3, memory3_len, writers3, writers3_len },
    };
    uint64_t refusal = refusal_of(chips, *count, event, pins);
    if (refusal != 0)
        return refusal;
    uint64_t answer = answer_of(chips, *count, event, pins);
    *count += 1;
    return answer;
}
