/* Every state that is allowed, by every sample: with room for an event, and with none. */
#include "records.h"
#include "themes.h"
#include "wires_calls.h"

static const uint64_t unclear_counts[] = { 0, UINT64_MAX - 1, UINT64_MAX };

enum { UNCLEAR_COUNTS = sizeof unclear_counts / sizeof unclear_counts[0], SAMPLES = 4 };

/* With no room a sample is consumed exactly if it has no event. */
static void try_sample(const uint64_t *words, uint8_t sample)
{
    lend_state(words, STATE_LEN);
    struct fed fed = compare_wires(&sample, 1, 1);
    if (fed.result != 0 || fed.consumed != 1)
        fail("a sample with room is not consumed");
    bool told = fed.written == 1;
    if (quick && !told)
        return;
    lend_state(words, STATE_LEN);
    if (told)
        expect_refused(&sample, 1, 0, NO_ROOM);
    else
        expect_wires(&sample, 1, 0, 0, 1, 0);
}

/* The last sample, the stage and the bits in all mixtures. */
static void try_value(uint64_t unclear, uint64_t value)
{
    uint64_t words[MOST_WORDS] = { [W_UNCLEAR] = unclear, [W_VALUE] = value };
    for (words[W_LAST] = 0; words[W_LAST] <= state_limit(W_LAST); words[W_LAST]++)
        for (words[W_STAGE] = 0; words[W_STAGE] <= state_limit(W_STAGE); words[W_STAGE]++)
            for (words[W_BITS] = 0; words[W_BITS] <= state_limit(W_BITS); words[W_BITS]++)
                for (unsigned sample = 0; sample < SAMPLES; sample++)
                    try_sample(words, (uint8_t)sample);
}

/* All of a byte's values with one count, which changes from one to the next; some with every count. */
void test_states(void)
{
    theme("states");
    for (uint64_t value = 0; value < 256; value += quick ? 37 : 1)
        for (size_t u = 0; u < UNCLEAR_COUNTS; u++)
            if (value % UNCLEAR_COUNTS == u || value % 32 == 31)
                try_value(unclear_counts[u], value);
}
