/* Messages of a master to four chips, at random: writes and reads, each of any chip or of none, repeated
 * STARTs, stray bytes, reset pulses and sensor readings. In between, anywhere in a message, come events
 * that the bus refuses: such as are none, and readings for no chip. */
#ifndef MESSAGES_H
#define MESSAGES_H

#include <stddef.h>
#include <stdint.h>

enum { MOST_SENT = 4000 };

/* An event, the number that goes with it, and what the bus refuses it by: BAD_EVENT, BAD_PINS, or 0. */
struct sent {
    uint16_t event;
    uint64_t pins;
    uint64_t refusal;
};

struct messages {
    size_t length;
    struct sent sent[MOST_SENT];
};

/* This many events, MOST_SENT at most. */
void make_messages(struct messages *messages, size_t events);

#endif
