#include "capture.h"

#include "bus.h"
#include "model.h"
#include "pixels.h"

#include <stdbool.h>
#include <string.h>

enum { BUFFER = 1 << 16, EVENTS = 1 << 12 };

/* What a line holds if it is no number from 0 to 999: nothing, as the file has ended, or anything. */
enum { NO_LINE = 1000, BAD_LINE = 1001 };

/* at_a_time: how many bytes are asked for, and waited for, before the first of them is looked at. */
struct reader {
    FILE *file;
    size_t at_a_time;
    size_t at, length;
    uint8_t buffer[BUFFER];
};

/* ---- Bytes and numbers ------------------------------------------------------------------- */

static int next_byte(struct reader *reader)
{
    if (reader->at == reader->length) {
        reader->length = fread(reader->buffer, 1, reader->at_a_time, reader->file);
        reader->at = 0;
        if (reader->length == 0)
            return EOF;
    }
    return reader->buffer[reader->at++];
}

static bool is_digit(int byte)
{
    return byte >= '0' && byte <= '9';
}

/* The rest of a line that begins with this byte: 1 to 3 digits and a newline. */
static unsigned number_from(struct reader *reader, int byte)
{
    if (!is_digit(byte))
        return BAD_LINE;
    unsigned number = (unsigned)(byte - '0');
    int most_digits = number == 0 ? 1 : 3;
    for (int digits = 1; digits < most_digits; digits++) {
        byte = next_byte(reader);
        if (byte == '\n')
            return number;
        if (!is_digit(byte))
            return BAD_LINE;
        number = 10 * number + (unsigned)(byte - '0');
    }
    return next_byte(reader) == '\n' ? number : BAD_LINE;
}

/* ---- Lines ------------------------------------------------------------------------------- */

static unsigned pins_line(struct reader *reader)
{
    for (const char *word = "pins\t"; *word != '\0'; word++)
        if (next_byte(reader) != *word)
            return BAD_LINE;
    return number_from(reader, next_byte(reader));
}

static unsigned event_line(struct reader *reader)
{
    int byte = next_byte(reader);
    return byte == EOF ? NO_LINE : number_from(reader, byte);
}

/* Takes event lines up to one that is none, or until there is no room. *stopped: what that line
 * holds, 0 if there is no room. */
static size_t take_lines(struct reader *reader, uint16_t *events, unsigned *stopped)
{
    size_t count = 0;
    while (count < EVENTS) {
        unsigned line = event_line(reader);
        if (line >= NO_LINE) {
            *stopped = line;
            return count;
        }
        events[count++] = (uint16_t)line;
    }
    *stopped = 0;
    return count;
}

/* Gives whether there is a chip with these pins. */
static bool start(struct played *played, unsigned pins)
{
    uint64_t *pixels = played->record + PIXELS_0;
    memset(played, 0, sizeof *played);
    return model_reset(played->record, WORDS, pins) == 0
        && model_counts(played->memory, PLACES, &pixels[0], &pixels[1], &pixels[2], &pixels[3]) == 0;
}

uint64_t play_capture(FILE *file, struct played *played)
{
    struct reader reader = { .file = file, .at_a_time = BUFFER };
    uint16_t events[EVENTS];
    uint64_t lines = 1;
    unsigned stopped = 0;

    if (!start(played, pins_line(&reader)))
        return lines;
    while (stopped != NO_LINE) {
        uint64_t done, unknown, out_of_range;
        size_t count = take_lines(&reader, events, &stopped);
        uint64_t refusal = model_run(played->record, WORDS, played->memory, PLACES,
                                     played->writers, PLACES, &played->count,
                                     events, count, &done, &unknown, &out_of_range);
        lines += done;
        if (refusal != 0 || stopped == BAD_LINE)
            return lines + 1;
    }
    return 0;
}

uint64_t play_events(FILE *file, struct played *played, told *tell)
{
    struct reader reader = { .file = file, .at_a_time = 1 };
    uint64_t earlier[WORDS];

    if (!start(played, pins_line(&reader)))
        return 1;
    for (uint64_t line = 2;; line++) {
        unsigned event = event_line(&reader);
        if (event >= NO_LINE)
            return event == BAD_LINE ? line : 0;
        memcpy(earlier, played->record, sizeof earlier);
        uint64_t answer = model_step(played->record, WORDS, played->memory, PLACES,
                                     played->writers, PLACES, &played->count, (uint16_t)event);
        if (answer < NOTHING)
            return line;
        tell(earlier, played, event, answer);
    }
}
