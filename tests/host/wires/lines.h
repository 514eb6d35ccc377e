/* Samples of the two lines while a master and chips talk, and the events in them. The events are known
 * from what is put on the lines; they are not found by looking at the samples. */
#ifndef LINES_H
#define LINES_H

#include <stdbool.h>
#include <stddef.h>
#include <stdint.h>

enum { MOST_SAMPLES = 1 << 21, MOST_TOLD = 80000 };

enum { START = 256, STOP, READ_ACK, READ_NACK };

/* The lines in a sample. */
enum { SDA = 1, SCL = 2, BOTH = SCL | SDA };

/* How often each level of the lines is sampled, at least and at most, and how often the data line may
 * go to and fro while the clock is low. */
struct sampling {
    unsigned least, most, wiggles;
};

struct lines {
    struct sampling sampling;
    uint8_t samples[MOST_SAMPLES];
    size_t length;
    uint16_t events[MOST_TOLD];
    size_t places[MOST_TOLD]; /* the sample that each event comes with */
    size_t told;
    uint64_t unclear;
    bool lost;      /* after an unclear sample nothing is told until a START */
    unsigned level; /* the present one of both lines */
    size_t changed; /* the first sample of this level */
};

/* No samples yet, both lines high. */
void clear_lines(struct lines *lines, struct sampling sampling);

void put_start(struct lines *lines);
void put_stop(struct lines *lines);

/* The low bits of value, the high one of them first. */
void put_bits(struct lines *lines, unsigned value, unsigned count);

/* A byte and its ninth bit, with this event. */
void put_byte(struct lines *lines, unsigned value, unsigned ninth, unsigned event);

/* Both lines change at once. */
void put_unclear(struct lines *lines);

#endif
