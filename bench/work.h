/* What a side does with one chip: steps and runs over a stream. */
#ifndef WORK_H
#define WORK_H

#include "sides.h"
#include "streams.h"

/* The events that all work is done on. */
extern struct stream stream;

/* Each does its work once on one side, and gives how many events that was. */
uint64_t step_all(struct side *side);
uint64_t run_all(struct side *side);
uint64_t run_messages(struct side *side); /* a call for each message */

/* A stream for one chip, and the names of what is done with it. */
struct chip_stream {
    void (*fill)(struct stream *);
    const char *step, *run, *messages;
};

enum { CHIP_STREAMS = 5 };

/* The first is that of whole banks. */
extern const struct chip_stream chip_streams[CHIP_STREAMS];

#endif
