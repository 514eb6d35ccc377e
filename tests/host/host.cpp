/* A host in C++. One of its four chips gets an event that the bus does not get; from then on the bus
 * refuses every event, until all four are made idle in one of the two ways that the header tells. It
 * brings a memory of its own, and counts its pixels when a display byte is refused. Then it reads the
 * wires, one event at a time. */
#include "pcf8820.h"

#include <cstdio>
#include <cstdlib>

static uint64_t records[PCF8820_CHIPS][PCF8820_RECORD_WORDS];
static uint8_t memories[PCF8820_CHIPS][PCF8820_PLACES];
static uint64_t writers[PCF8820_CHIPS][PCF8820_PLACES];
static pcf8820_chip chips[PCF8820_CHIPS];
static uint64_t count;

static void expect(const char *what, uint64_t result, uint64_t right)
{
    if (result == right)
        return;
    std::fprintf(stderr, "C++ host: %s: %llu, and not %llu\n", what, (unsigned long long)result,
                 (unsigned long long)right);
    std::exit(1);
}

static void expect_on_bus(const char *what, uint16_t event, uint64_t right)
{
    uint64_t before = count;
    expect(what, pcf8820_bus(chips, &count, event, 0), right);
    expect("the count", count, right < PCF8820_ANSWER_NONE ? before : before + 1);
}

static void reset_all()
{
    for (uint64_t c = 0; c < PCF8820_CHIPS; c++)
        expect("reset", pcf8820_reset(records[c], PCF8820_RECORD_WORDS, PCF8820_CHIPS - 1 - c),
               PCF8820_DONE);
}

static void idle_all()
{
    for (int c = 0; c < PCF8820_CHIPS; c++) {
        records[c][PCF8820_WORD_PHASE] = PCF8820_PHASE_IDLE;
        records[c][PCF8820_WORD_PHASE_RS] = 0;
    }
}

/* Ends in the middle of a write to the chip with pins 3, which is chip 0. */
static void begin_message()
{
    expect_on_bus("START", PCF8820_EVENT_START, PCF8820_ANSWER_NONE);
    expect_on_bus("address", 0x7E, PCF8820_ANSWER_ACKNOWLEDGED);
    expect_on_bus("control", 0x40, PCF8820_ANSWER_ACKNOWLEDGED);
}

static void stop_chip(int c)
{
    expect("STOP for a chip alone",
           pcf8820_step(chips[c].record, chips[c].record_len, chips[c].memory, chips[c].memory_len,
                        chips[c].writers, chips[c].writers_len, &count, PCF8820_EVENT_STOP),
           PCF8820_ANSWER_NONE);
    expect_on_bus("START after it", PCF8820_EVENT_START, PCF8820_REFUSED_CHIPS);
    expect_on_bus("reset pulse after it", PCF8820_EVENT_RESET, PCF8820_REFUSED_CHIPS);
}

static void expect_pixels(const char *what, uint64_t n0, uint64_t n1, uint64_t n2, uint64_t n3)
{
    const uint64_t *pixels = records[0] + PCF8820_WORD_PIXELS_0;
    expect(what, pixels[0], n0);
    expect(what, pixels[1], n1);
    expect(what, pixels[2], n2);
    expect(what, pixels[3], n3);
}

/* Chip 0 is in the middle of a write. Every pixel of its memory becomes 3, which the counts do not know:
 * by them there is no pixel that a byte of zeros could take away. */
static void count_pixels()
{
    uint64_t *pixels = records[0] + PCF8820_WORD_PIXELS_0;
    expect_pixels("pixels after reset", PCF8820_PIXELS, 0, 0, 0);
    for (int place = 0; place < PCF8820_PLACES; place++)
        memories[0][place] = 0xFF;
    expect_on_bus("display byte with untrue counts", 0x00, PCF8820_REFUSED_PIXEL_COUNT);
    expect("a short memory", pcf8820_counts(memories[0], PCF8820_PLACES - 1, &pixels[0], &pixels[1], &pixels[2], &pixels[3]),
           PCF8820_REFUSED_MEMORY);
    expect_pixels("pixels of a short memory", 0, 0, 0, 0);
    expect("counts", pcf8820_counts(memories[0], PCF8820_PLACES, &pixels[0], &pixels[1], &pixels[2], &pixels[3]),
           PCF8820_DONE);
    expect_pixels("pixels counted", 0, 0, 0, PCF8820_PIXELS);
    expect_on_bus("display byte with true counts", 0x00, PCF8820_ANSWER_ACKNOWLEDGED);
    expect_pixels("pixels after the byte", 4, 0, 0, PCF8820_PIXELS - 4);
}

/* START, 78h, acknowledged, and STOP. */
static const uint8_t samples[] = {
    3, 2, 0, 2, 0, 1, 3, 1, 3, 1, 3, 1, 3, 1, 0, 2, 0, 2, 0, 2, 0, 2, 0, 2, 3
};
static const uint16_t events[] = { PCF8820_EVENT_START, 0x78, PCF8820_EVENT_STOP };

static uint64_t wires[PCF8820_WIRE_WORDS];

/* After 15 it goes on with the sample whose event had no room. */
static void read_wires()
{
    const std::size_t length = sizeof samples, all = sizeof events / sizeof events[0];
    std::size_t from = 0;
    uint64_t consumed, written;
    uint16_t event;
    expect("start of the wires", pcf8820_wires_start(wires, PCF8820_WIRE_WORDS), PCF8820_DONE);
    for (std::size_t i = 0; i < all; i++) {
        expect("wires", pcf8820_wires(wires, PCF8820_WIRE_WORDS, samples + from, length - from, &event, 1, &consumed, &written),
               i < all - 1 ? PCF8820_REFUSED_EVENT_BUFFER : PCF8820_DONE);
        expect("events written", written, 1);
        expect("event", event, events[i]);
        from += consumed;
    }
    expect("samples consumed", from, length);
    expect("unclear samples", wires[PCF8820_WIRE_WORD_UNCLEAR], 0);
    expect("stage", wires[PCF8820_WIRE_WORD_STAGE], PCF8820_WIRE_STAGE_OUTSIDE);
}

static void refuse_wires()
{
    const uint8_t bad = 4;
    uint64_t consumed, written;
    uint16_t event;
    expect("sample 4", pcf8820_wires(wires, PCF8820_WIRE_WORDS, &bad, 1, &event, 1, &consumed, &written), PCF8820_REFUSED_SAMPLE);
    wires[PCF8820_WIRE_WORD_LAST] = bad;
    expect("last sample 4", pcf8820_wires(wires, PCF8820_WIRE_WORDS, samples, 1, &event, 1, &consumed, &written),
           PCF8820_REFUSED_WIRE_STATE);
}

int main()
{
    for (int c = 0; c < PCF8820_CHIPS; c++)
        chips[c] = { records[c], PCF8820_RECORD_WORDS, memories[c], PCF8820_PLACES, writers[c], PCF8820_PLACES };
    reset_all();
    begin_message();
    stop_chip(2);
    idle_all();
    begin_message();
    stop_chip(0);
    reset_all();
    begin_message();
    count_pixels();
    read_wires();
    refuse_wires();
    std::puts("C++ host: as the header says");
    return 0;
}
