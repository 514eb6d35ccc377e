/* The state before the first sample, in buffers of every length. */
#include "themes.h"
#include "wires_calls.h"

void test_starts(void)
{
    static const uint64_t start[STATE_LEN] = { 0, 3, 0, 0, 0 };
    theme("starts");
    for (int i = 0; i < 64; i++)
        for (size_t state_len = 0; state_len <= MOST_WORDS; state_len++)
            if (compare_start(state_len) != (state_len == STATE_LEN ? 0 : BAD_STATE))
                fail("a state of %zu words", state_len);
    start_again();
    expect_state(start);
}
