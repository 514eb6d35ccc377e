/* The sides that are compared: the calls of include/pcf8820.h, the model's, step and run of the limit, and the
 * run of the model without its counts of pixels. */
#ifndef SIDES_H
#define SIDES_H

#include <stddef.h>
#include <stdint.h>

enum { WORDS = 38, PLACES = 1717, CHIPS = 4, VALUES = 4, ROW_BYTES = 404, WIRE_WORDS = 5, MOST_OUT = 1 << 18 };

/* The arguments of one chip. */
#define OF_A_CHIP uint64_t *, size_t, uint8_t *, size_t, uint64_t *, size_t

struct calls {
    uint64_t (*step)(OF_A_CHIP, uint64_t *, uint16_t);
    uint64_t (*run)(OF_A_CHIP, uint64_t *, const uint16_t *, size_t,
                    uint64_t *, uint64_t *, uint64_t *);
    uint64_t (*bus_step)(OF_A_CHIP, OF_A_CHIP, OF_A_CHIP, OF_A_CHIP,
                         uint64_t *, uint16_t, uint64_t);
    uint64_t (*counts)(const uint8_t *, size_t, uint64_t *, uint64_t *, uint64_t *, uint64_t *);
    void (*refresh)(const uint64_t *, const uint8_t *, uint64_t *);
    uint64_t (*glass)(const uint64_t *, size_t, const uint8_t *, size_t, uint64_t, uint64_t);
    uint64_t (*pulse_row)(const uint64_t *, size_t, const uint8_t *, size_t, uint64_t,
                          uint8_t *, size_t);
    uint64_t (*compile)(const uint64_t *, size_t, const uint8_t *, size_t, uint16_t *, size_t,
                        uint64_t *, uint64_t *, uint64_t *);
    uint64_t (*wires)(uint64_t *, size_t, const uint8_t *, size_t, uint16_t *, size_t,
                      uint64_t *, uint64_t *);
};

struct chip {
    uint64_t record[WORDS];
    uint8_t memory[PLACES];
    uint64_t writers[PLACES];
};

/* What a side works on, one chip, four on a bus or the wires, and a sum over all that it gave back. */
struct side {
    const struct calls *calls;
    size_t words; /* the first ones of the record, which must be the library's */
    uint64_t record[WORDS];
    uint8_t memory[PLACES];
    uint64_t writers[PLACES];
    struct chip on_bus[CHIPS];
    uint64_t count;
    uint8_t row[ROW_BYTES];
    uint64_t wires[WIRE_WORDS];
    uint16_t out[MOST_OUT];
    uint64_t sum;
};

extern struct side library, model, limit, uncounted;

/* The reset record, on the bus with the pins 0 to 3; the wires before the first sample; memories, the
 * count and the outputs 0. */
void clear(struct side *side);

/* A record that shows levels, and a random memory with its counts of pixels, for the library and the model. */
void light_up(void);

/* Ends the program if the library and the other side do not stand alike. */
void must_agree(const struct side *other, const char *name);

#endif
