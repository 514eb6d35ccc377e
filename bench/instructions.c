/* The steps and runs of bench/run, once on each side, for valgrind's callgrind to count their instructions. It
 * counts within the marks only, and stores each count under the line's name, the side's and the number of events;
 * the few instructions of the loop that makes the calls are among them. */
#include "sides.h"
#include "work.h"

#include <stdio.h>
#include <valgrind/callgrind.h>

enum { SIDES = 3, LONGEST_LABEL = 128 };

static struct {
    const char *name;
    struct side *side;
} const sides[SIDES] = { { "library", &library }, { "model", &model }, { "limit", &limit } };

/* The first time is not counted: at it the model makes its table of commands. */
static uint64_t count_instructions(struct side *side, uint64_t (*work)(struct side *))
{
    clear(side);
    work(side);
    clear(side);
    CALLGRIND_START_INSTRUMENTATION;
    uint64_t events = work(side);
    CALLGRIND_STOP_INSTRUMENTATION;
    return events;
}

static void count_line(const char *name, uint64_t (*work)(struct side *))
{
    for (int s = 0; s < SIDES; s++) {
        char label[LONGEST_LABEL];
        uint64_t events = count_instructions(sides[s].side, work);
        snprintf(label, sizeof label, "%s; %s; %llu", name, sides[s].name, (unsigned long long)events);
        CALLGRIND_DUMP_STATS_AT(label);
    }
    must_agree(&model, name);
    must_agree(&limit, name);
}

int main(void)
{
    for (int i = 0; i < CHIP_STREAMS; i++) {
        chip_streams[i].fill(&stream);
        count_line(chip_streams[i].step, step_all);
        count_line(chip_streams[i].run, run_all);
        count_line(chip_streams[i].messages, run_messages);
    }
    return 0;
}
