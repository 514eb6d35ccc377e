#include "check.h"

#include "model.h"
#include "pixels.h"

#include <string.h>

enum { NOTHING = 256, ACK = 257, BAD_PIXEL_COUNT = 16 };

enum { RESET_PULSE = 260, UNLISTED = 261 };

static unsigned long long counts;

/* Document 02, W8: the counting start, of memories whose counts are known. */
static void check_counting(uint8_t byte, uint8_t of_last_bank, const uint64_t *right)
{
    uint8_t memory[PLACES + 1];
    uint64_t n[VALUES];
    for (size_t place = 0; place < sizeof memory; place++)
        memory[place] = place < COLUMNS * (BANKS - 1) ? byte : of_last_bank;
    for (size_t length = PLACES - 1; length <= PLACES + 1; length++) {
        memset(n, 0xC3, sizeof n);
        uint64_t result = model_counts(memory, length, &n[0], &n[1], &n[2], &n[3]);
        require(result == (length == PLACES ? 0 : 1), "the refusal of the counting start");
        require(memcmp(n, length == PLACES ? right : (const uint64_t[VALUES]) { 0 }, sizeof n) == 0,
                "the counts of a known memory");
        counts++;
    }
}

static void check_countings(void)
{
    check_counting(0x00, 0x00, (const uint64_t[]) { 6767, 0, 0, 0 });
    check_counting(0xFF, 0xFF, (const uint64_t[]) { 0, 0, 0, 6767 });
    check_counting(0x1B, 0x1B, (const uint64_t[]) { 1616, 1717, 1717, 1717 });
    check_counting(0x00, 0xC0, (const uint64_t[]) { 6767, 0, 0, 0 });
    check_counting(0x55, 0xBF, (const uint64_t[]) { 0, 6464, 0, 303 });
}

/* One display byte: the counts before, the bank, the byte that stands there and the one that is sent;
 * then the answer, and the counts after it. */
static const struct mended {
    uint64_t before[VALUES];
    unsigned bank;
    uint8_t old, sent;
    uint64_t answer;
    uint64_t after[VALUES];
} mendings[] = {
    { { 6767, 0, 0, 0 }, 2, 0x00, 0xA7, ACK, { 6763, 1, 2, 1 } },
    { { 6763, 1, 2, 1 }, 2, 0xA7, 0x00, ACK, { 6767, 0, 0, 0 } },
    { { 6767, 0, 0, 0 }, 16, 0x00, 0xFF, ACK, { 6764, 0, 0, 3 } },
    /* Bits 6 and 7 of bank 16, of the byte that stands there and of the one that is sent. */
    { { 0, 0, 0, 0 }, 16, 0xC0, 0x00, ACK, { 0, 0, 0, 0 } },
    { { 0, 0, 0, 3 }, 16, 0x7F, 0x00, ACK, { 3, 0, 0, 0 } },
    { { 6767, 6767, 6767, 6767 }, 16, 0x00, 0xC0, ACK, { 6767, 6767, 6767, 6767 } },
    /* What leaves and joins again: the whole byte decides. */
    { { 0, 0, 0, 0 }, 0, 0xA7, 0xA7, ACK, { 0, 0, 0, 0 } },
    { { 0, 0, 0, 0 }, 0, 0x1B, 0xE4, ACK, { 0, 0, 0, 0 } },
    { { 6767, 6767, 6767, 6767 }, 0, 0xE4, 0x1B, ACK, { 6767, 6767, 6767, 6767 } },
    { { 0, 0, 6767, 1 }, 0, 0x1B, 0xE0, BAD_PIXEL_COUNT, { 0, 0, 6767, 1 } },
    { { 0, 1, 6767, 0 }, 0, 0x1B, 0xE0, ACK, { 1, 0, 6767, 0 } },
    /* Untrue counts, up to the last that fits. */
    { { 0, 1, 0, 0 }, 7, 0x01, 0x00, ACK, { 1, 0, 0, 0 } },
    { { 0, 0, 0, 0 }, 7, 0x01, 0x00, BAD_PIXEL_COUNT, { 0, 0, 0, 0 } },
    { { 6766, 1, 0, 0 }, 7, 0x01, 0x00, ACK, { 6767, 0, 0, 0 } },
    { { 6767, 1, 0, 0 }, 7, 0x01, 0x00, BAD_PIXEL_COUNT, { 6767, 1, 0, 0 } },
    { { 9, 9, 9, 4 }, 7, 0xFF, 0x00, ACK, { 13, 9, 9, 0 } },
    { { 9, 9, 9, 3 }, 7, 0xFF, 0x00, BAD_PIXEL_COUNT, { 9, 9, 9, 3 } },
    { { 6763, 0, 0, 4 }, 7, 0xFF, 0x00, ACK, { 6767, 0, 0, 0 } },
    { { 6764, 0, 0, 4 }, 7, 0xFF, 0x00, BAD_PIXEL_COUNT, { 6764, 0, 0, 4 } },
};

/* A chip that awaits display bytes for a cell of this bank, with these counts. */
static struct chip mending_chip(const struct mended *this)
{
    struct chip chip = { .count = 41 };
    model_reset(chip.record, WORDS, 0);
    chip.record[X] = 30;
    chip.record[Y] = this->bank;
    chip.record[PHASE] = 5;
    chip.record[PHASE_RS] = 1;
    chip.memory[COLUMNS * this->bank + 30] = this->old;
    memcpy(chip.record + PIXELS_0, this->before, sizeof this->before);
    return chip;
}

static uint64_t give(struct chip *chip, uint16_t event)
{
    counts++;
    return model_step(chip->record, WORDS, chip->memory, PLACES, chip->writers, PLACES,
                      &chip->count, event);
}

static void check_mending(const struct mended *this)
{
    struct chip chip = mending_chip(this);
    struct chip before = chip;
    require(give(&chip, this->sent) == this->answer, "whether a display byte fits the counts");
    require(has_counts(chip.record, this->after), "the counts after a display byte");
    require(this->answer == ACK || equal_chips(&chip, &before), "a refused byte changes nothing");
}

/* 3 and 4 come before 16, and what is no display byte never gives 16. */
static void check_unfit(void)
{
    static const struct mended unfit = { .old = 0x01 };
    struct chip chip = mending_chip(&unfit);
    require(give(&chip, UNLISTED) == 3, "3 before 16");
    chip.count = UINT64_MAX;
    require(give(&chip, 0x00) == 4, "4 before 16");
    chip.count = 41;
    require(give(&chip, 0x00) == BAD_PIXEL_COUNT, "16");
    chip.record[PIXELS_3] = 6768;
    require(give(&chip, 0x00) == 2, "2 before 16");
    chip.record[PIXELS_3] = 6767;
    require(give(&chip, RESET_PULSE) == NOTHING, "a reset pulse");
    require(has_counts(chip.record, (const uint64_t[]) { 0, 0, 0, 6767 }), "a reset pulse keeps the counts");
    for (uint64_t phase = 0; phase <= 7; phase++) {
        chip.record[PHASE] = phase;
        chip.record[PHASE_RS] = 0;
        require(give(&chip, 0x00) >= NOTHING, "a byte that is no display byte");
    }
    require(has_counts(chip.record, (const uint64_t[]) { 0, 0, 0, 6767 }), "other bytes keep the counts");
}

unsigned long long check_counts(void)
{
    uint64_t record[WORDS];
    check_countings();
    for (size_t i = 0; i < sizeof mendings / sizeof mendings[0]; i++)
        check_mending(&mendings[i]);
    check_unfit();
    model_reset(record, WORDS, 0);
    require(has_counts(record, (const uint64_t[]) { 6767, 0, 0, 0 }), "the counts after reset");
    return counts;
}
