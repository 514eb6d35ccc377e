#include "samples.h"

#include "records.h"

/* Bytes from the master are acknowledged. What is read is any byte. */
static void put_event(struct lines *lines, unsigned event)
{
    if (event < START)
        put_byte(lines, event, 0, event);
    else if (event == START)
        put_start(lines);
    else if (event == STOP)
        put_stop(lines);
    else if (event == READ_ACK || event == READ_NACK)
        put_byte(lines, (unsigned)below(256), event == READ_NACK, event);
}

void sample_stream(struct lines *lines, const struct stream *stream, size_t events, unsigned often)
{
    clear_lines(lines, (struct sampling) { .least = often, .most = often });
    for (size_t i = 0; i < events && i < stream->length; i++)
        put_event(lines, stream->events[i]);
}
