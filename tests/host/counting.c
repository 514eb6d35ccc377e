/* The counting start, by number and not by the model alone. */
#include "harness.h"
#include "records.h"
#include "themes.h"

#include <string.h>

enum { BAD_MEMORY = 1 };

static void try_start(const char *what, const uint64_t *right)
{
    static struct state before;
    uint64_t counts[PIXEL_VALUES];
    save(&before);
    expect_result(what, compare_counts(counts), 0);
    if (memcmp(counts, right, sizeof counts) != 0)
        fail("%s: %llu, %llu, %llu and %llu pixels", what, (unsigned long long)counts[0],
             (unsigned long long)counts[1], (unsigned long long)counts[2],
             (unsigned long long)counts[3]);
    expect_state("a counting start changes nothing", &before);
}

static void try_present_memory(const char *what)
{
    static struct state now;
    save(&now);
    set_pixels(now.record, now.memory);
    try_start(what, now.record + W_PIXELS_0);
}

static void try_known_memories(void)
{
    lend_usual();
    fill_memory(0x00, 0x00);
    try_start("zeros", (const uint64_t[]) { 6767, 0, 0, 0 });
    fill_memory(0xFF, 0xFF);
    try_start("every bit set", (const uint64_t[]) { 0, 0, 0, 6767 });
    fill_memory(0x00, 0xC0);
    try_start("bits that are no pixel", (const uint64_t[]) { 6767, 0, 0, 0 });
    fill_memory(0x1B, 0x1B);
    try_start("each value once in a byte", (const uint64_t[]) { 1616, 1717, 1717, 1717 });
    fill_memory(0x55, 0xAA);
    try_start("two values", (const uint64_t[]) { 0, 6464, 303, 0 });
}

/* One byte among zeros, in every place. */
static void try_single_bytes(void)
{
    fill_memory(0x00, 0x00);
    for (size_t place = 0; place < PLACES; place++) {
        set_byte(place, (uint8_t)(1 + below(255)));
        try_present_memory("one byte");
        set_byte(place, 0x00);
    }
}

/* Every length near the right one: what is refused sets the four numbers to 0, too. */
static void try_length(size_t memory_len, enum where where)
{
    uint64_t counts[PIXEL_VALUES];
    lend(RECORD_LEN, memory_len, PLACES, where);
    if (memory_len == PLACES) {
        try_present_memory("the right length");
        return;
    }
    expect_result("a wrong length", compare_counts(counts), BAD_MEMORY);
    if ((counts[0] | counts[1] | counts[2] | counts[3]) != 0)
        fail("a refused counting start gives pixels");
}

void test_counting(void)
{
    static const size_t lengths[] = { 0, 1, 4, 101, 256, 1024, 1616 };
    theme("counting start");
    try_known_memories();
    try_single_bytes();
    for (unsigned byte = 0; byte < 256; byte++) {
        fill_memory((uint8_t)byte, (uint8_t)byte);
        try_present_memory("one byte in every place");
    }
    for (enum where where = AT_START; where <= AT_END; where++) {
        for (size_t i = 0; i < sizeof lengths / sizeof lengths[0]; i++)
            try_length(lengths[i], where);
        for (size_t length = PLACES - 20; length <= MOST_PLACES; length++)
            try_length(length, where);
        for (int i = 0; i < (quick ? 20 : 500); i++)
            try_length(PLACES, where);
    }
}
