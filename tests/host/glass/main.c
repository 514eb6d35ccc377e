/* Holds the library's glass and its pulses against the model's. `quick` as the argument makes a
 * sample only. */
#include "glass_calls.h"
#include "themes.h"

#include <string.h>

int main(int argc, char **argv)
{
    quick = argc > 1 && strcmp(argv[1], "quick") == 0;
    glass_start();
    test_modes();
    test_levels();
    test_whole_glass();
    test_edges();
    test_pulses();
    test_row_buffers();
    report_calls("glass tests");
    return 0;
}
