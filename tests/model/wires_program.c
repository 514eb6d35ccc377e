/* wires PINS [SAMPLES]: the capture of what was on the wires, from samples of them as they are read. */
#include "program.h"
#include "wires.h"

#include <inttypes.h>

#define USAGE "wires PINS [SAMPLES]"

enum { BAD_SAMPLE = 14 };

/* The length of a wire state, and the word that counts the unclear samples. */
enum { WIRE_WORDS = 5, UNCLEAR = 0 };

/* Gives up on an input that can't be read, before anything is printed. */
static void look_ahead(FILE *file)
{
    ungetc(fgetc(file), file);
    check_input("wires", file);
}

/* Sample by sample, with room for the event of one. Up to the end, or to a byte that is no sample. */
static void print_events(FILE *file, uint64_t *state)
{
    int byte;
    for (uint64_t place = 0; (byte = fgetc(file)) != EOF; place++) {
        uint8_t sample = (uint8_t)byte;
        uint16_t event;
        uint64_t consumed, written;
        uint64_t refusal = model_wires(state, WIRE_WORDS, &sample, 1, &event, 1, &consumed, &written);
        if (refusal == BAD_SAMPLE) {
            printf("refused\t%d\t%" PRIu64 "\n", BAD_SAMPLE, place);
            return;
        }
        if (written == 1)
            printf("%u\n", event);
    }
}

static void tell_unclear(uint64_t samples)
{
    if (samples != 0)
        fprintf(stderr, "wires: %" PRIu64 " unclear sample%s\n", samples, samples == 1 ? "" : "s");
}

int main(int argc, char **argv)
{
    uint64_t state[WIRE_WORDS];
    check_words(argc, argv, "wires", 2, 3, USAGE);
    uint64_t pins = pins_of("wires", argv[1], USAGE);
    FILE *file = open_input("wires", argc == 3 ? argv[2] : NULL);
    look_ahead(file);
    setvbuf(stdout, NULL, _IOLBF, BUFSIZ);
    printf("pins\t%" PRIu64 "\n", pins);
    model_wires_start(state, WIRE_WORDS);
    print_events(file, state);
    tell_unclear(state[UNCLEAR]);
    check_input("wires", file);
    return 0;
}
