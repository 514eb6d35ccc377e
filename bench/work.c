#include "work.h"

struct stream stream;

const struct chip_stream chip_streams[CHIP_STREAMS] = {
    { banks_stream, "step, whole banks", "run, whole banks", "run, a bank a call" },
    { swapped_stream, "step, banks, DO 1", "run, banks, DO 1", "run, DO 1, a bank a call" },
    { cells_stream, "step, single cells", "run, single cells", "run, a cell a call" },
    { commands_stream, "step, commands", "run, commands", "run, a command a call" },
    { mixed_stream, "step, mixed", "run, mixed", "run, mixed, one a call" },
};

uint64_t step_all(struct side *side)
{
    for (size_t i = 0; i < stream.length; i++)
        side->sum += side->calls->step(side->record, WORDS, side->memory, PLACES,
                                       side->writers, PLACES, &side->count, stream.events[i]);
    return stream.length;
}

static void run_part(struct side *side, size_t from, size_t to)
{
    uint64_t done, unknown, out_of_range;
    side->sum += side->calls->run(side->record, WORDS, side->memory, PLACES, side->writers, PLACES,
                                  &side->count, stream.events + from, to - from, &done, &unknown,
                                  &out_of_range);
    /* Each by a weight of its own, so that counts that are exchanged make another sum. */
    side->sum += done + 3 * unknown + 7 * out_of_range;
}

uint64_t run_all(struct side *side)
{
    run_part(side, 0, stream.length);
    return stream.length;
}

uint64_t run_messages(struct side *side)
{
    size_t from = 0;
    for (size_t i = 0; i < stream.messages; i++) {
        run_part(side, from, stream.ends[i]);
        from = stream.ends[i];
    }
    return from;
}
