/* make_capture BYTES KIND: a capture of about this length, random all through. KIND is mixed, for all the kinds of
 * messages that streams.h has, or banks, for whole banks alone. */
#include "streams.h"

#include <stdio.h>
#include <stdlib.h>
#include <string.h>

static size_t print_events(const struct stream *stream)
{
    size_t printed = 0;
    for (size_t i = 0; i < stream->length; i++)
        printed += (size_t)printf("%u\n", stream->events[i]);
    return printed;
}

/* Each filling is of new random numbers: a program that reads the capture meets no part of it twice. */
int main(int argc, char **argv)
{
    static struct stream stream;
    if (argc != 3 || (strcmp(argv[2], "mixed") != 0 && strcmp(argv[2], "banks") != 0)) {
        fprintf(stderr, "make_capture BYTES mixed|banks\n");
        return 2;
    }
    size_t bytes = strtoull(argv[1], NULL, 10);
    void (*fill)(struct stream *) = strcmp(argv[2], "banks") == 0 ? banks_stream : mixed_stream;
    size_t printed = (size_t)printf("pins\t0\n");
    while (printed < bytes) {
        fill(&stream);
        printed += print_events(&stream);
    }
    return 0;
}
