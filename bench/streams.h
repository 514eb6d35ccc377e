/* Bus events as a bench host sends them, the same at every run. */
#ifndef STREAMS_H
#define STREAMS_H

#include <stddef.h>
#include <stdint.h>

enum { MOST_EVENTS = 1 << 16 };

/* The events, and where each message ends. */
struct stream {
    size_t length;
    size_t messages;
    uint16_t events[MOST_EVENTS];
    size_t ends[MOST_EVENTS];
};

/* Each fills a stream. */
void banks_stream(struct stream *stream);    /* whole banks of display data */
void swapped_stream(struct stream *stream);  /* the same with DO = 1 */
void cells_stream(struct stream *stream);    /* single cells, each with its address */
void commands_stream(struct stream *stream); /* registers, one a message */
void mixed_stream(struct stream *stream);    /* all of these, reads, readings, other chips' messages */
void bus_stream(struct stream *stream);      /* the same for four chips, message by message in turn */

#endif
