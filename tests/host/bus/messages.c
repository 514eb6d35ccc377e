#include "messages.h"

#include "buses.h"

static struct messages *made;
static size_t wanted;

static void put(uint64_t event, uint64_t pins, uint64_t refusal)
{
    if (made->length < wanted)
        made->sent[made->length++] = (struct sent) { (uint16_t)event, pins, refusal };
}

/* The number beside an event that is no sensor reading can be anything. */
static void add(uint64_t event)
{
    if (below(40) == 0)
        put(unlisted_event(), odd_pins[below(ODD_PINS)], BAD_EVENT);
    if (below(40) == 0)
        put(SENSOR + below(256), below(2) ? 4 + below(300) : UINT64_MAX - below(300), BAD_PINS);
    put(event, event >= SENSOR ? below(4) : odd_pins[below(ODD_PINS)], 0);
}

/* One of the four chips, now and then no chip at all. */
static uint64_t address(void)
{
    return below(12) ? 0x78 | below(4) << 1 : below(256) & 0xFE;
}

/* Any byte, or one that moves to another page or near an edge. */
static uint64_t command(void)
{
    switch (below(8)) {
    case 0: return 0x01;
    case 1: return 0x08 + below(8);
    case 2: return 0x80 + 95 + below(8);
    case 3: return 0x40 + 14 + below(5);
    case 4: return 0x10 + below(16);
    default: return below(256);
    }
}

static void add_write(void)
{
    uint64_t singles = below(6);
    uint64_t endless = below(8) ? below(12) : below(300);
    uint64_t rs = below(2);
    add(START);
    add(address());
    for (uint64_t i = 0; i < singles; i++) {
        uint64_t data = below(3) == 0;
        add(0x80 | data << 6 | below(64));
        add(data ? below(256) : command());
    }
    add(rs << 6 | below(64));
    for (uint64_t i = 0; i < endless; i++)
        add(rs ? below(256) : command());
    if (below(4))
        add(STOP);
}

static void add_read(void)
{
    uint64_t bytes = below(4);
    add(START);
    add(address() | 1);
    for (uint64_t i = 0; i < bytes; i++)
        add(READ_ACK);
    if (below(2))
        add(READ_NACK);
    if (below(2))
        add(below(256));
    if (below(2))
        add(READ_ACK + below(2));
    if (below(4))
        add(STOP);
}

/* One chip leaves power-down and measures; readings for any of them follow. RS 0 is the last that it
 * gets, so a read gives the status byte. */
static void add_measurement(void)
{
    uint64_t chip = 0x78 | below(4) << 1;
    static const uint16_t bytes[] = { 0x00, 0x01, 0x10, 0x0A, 0x21 };
    add(START);
    add(chip);
    for (size_t i = 0; i < sizeof bytes / sizeof bytes[0]; i++)
        add(bytes[i]);
    for (uint64_t i = below(4); i > 0; i--)
        add(SENSOR + below(256));
    add(START);
    add(chip | 1);
    add(READ_ACK + below(2));
}

static void add_message(void)
{
    switch (below(40)) {
    case 0: add(RESET_PULSE); break;
    case 1: case 2: add(SENSOR + below(256)); break;
    case 3: add(START + below(5)); break;
    case 4: case 5: add(below(256)); break;
    case 6: case 7: case 8: add_measurement(); break;
    case 9: case 10: case 11: case 12: add_read(); break;
    default: add_write(); break;
    }
}

void make_messages(struct messages *messages, size_t events)
{
    made = messages;
    wanted = events;
    made->length = 0;
    while (made->length < wanted)
        add_message();
}
