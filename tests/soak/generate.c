/* generate [samples] EVENTS [bad]: a capture of this many events, all but the first three of them display bytes.
 *
 * Event n, from 4 on, writes the byte n % 100 to the place after that of event n - 1, and from the last
 * place on to the first; event 4 writes place 0. With `bad` a line that is no number follows.
 *
 * With `samples` it is the samples of two wires on which these events are said: two of them up to the
 * START, and 27 for each byte. With `bad` a byte that is no sample follows. */
#include <errno.h>
#include <stdbool.h>
#include <stdint.h>
#include <stdio.h>
#include <stdlib.h>
#include <string.h>
#include <unistd.h>

enum { PERIOD = 100, REPEATS = 4000, BITS = 9, LONGEST = 3 * BITS };

/* The address of pins 0 for writing, and a control byte: endless display bytes. With the START before
 * them they are the first events. */
enum { ADDRESS = 120, CONTROL = 64, HEAD_EVENTS = 3 };

static void write_all(const char *bytes, size_t length)
{
    while (length > 0) {
        ssize_t written = write(STDOUT_FILENO, bytes, length);
        if (written < 0) {
            fprintf(stderr, "generate: %s\n", strerror(errno));
            exit(1);
        }
        bytes += written;
        length -= (size_t)written;
    }
}

/* ---- A byte of the bus, as a line or as samples. Each gives its length. ------------------- */

static size_t line(char *text, unsigned byte)
{
    return (size_t)sprintf(text, "%u\n", byte);
}

/* For each bit the clock falls, the data line takes its level, and the clock rises. The ninth bit is 0,
 * and so is the data line before the first. */
static size_t samples(char *text, unsigned byte)
{
    char before = 0;
    for (int bit = 0; bit < BITS; bit++) {
        char level = (char)(byte << 1 >> (BITS - 1 - bit) & 1);
        text[3 * bit] = before;
        text[3 * bit + 1] = level;
        text[3 * bit + 2] = 2 | level;
        before = level;
    }
    return 3 * BITS;
}

typedef size_t put(char *text, unsigned byte);

/* This many events, the first of which is event `from`. Gives their length. */
static size_t put_events(char *text, put *put_byte, uint64_t from, uint64_t count)
{
    size_t length = 0;
    for (uint64_t n = from; n < from + count; n++)
        length += put_byte(text + length, (unsigned)(n % PERIOD));
    return length;
}

int main(int argc, char **argv)
{
    static char text[LONGEST * PERIOD * REPEATS + 1];
    bool sampled = argc > 1 && strcmp(argv[1], "samples") == 0;
    put *put_byte = sampled ? samples : line;
    argc -= sampled;
    argv += sampled;
    uint64_t events = argc == 2 || argc == 3 ? strtoull(argv[1], NULL, 10) : 0;
    if (events < HEAD_EVENTS) {
        fprintf(stderr, "usage: generate [samples] EVENTS [bad], with 3 events at least\n");
        return 2;
    }
    uint64_t left = events - HEAD_EVENTS;
    uint64_t whole = PERIOD * REPEATS;
    const char *start = sampled ? "\3\2" : "pins\t0\n256\n";
    write_all(start, strlen(start));
    write_all(text, put_byte(text, ADDRESS));
    write_all(text, put_byte(text, CONTROL));
    size_t length = put_events(text, put_byte, HEAD_EVENTS + 1, whole);
    for (; left >= whole; left -= whole)
        write_all(text, length);
    write_all(text, put_events(text, put_byte, HEAD_EVENTS + 1, left));
    if (argc == 3)
        write_all(sampled ? "\4" : "x\n", sampled ? 1 : 2);
    return 0;
}
