/* Holds the library against the model. `quick` as the argument makes a sample of the calls only. */
#include "harness.h"
#include "themes.h"

#include <string.h>

int main(int argc, char **argv)
{
    quick = argc > 1 && strcmp(argv[1], "quick") == 0;
    harness_start();
    test_resets();
    test_commands();
    test_answers();
    test_display();
    test_counts();
    test_counting();
    test_pixels();
    test_runs();
    test_run_counts();
    test_refusals();
    test_events();
    report_calls("host tests");
    return 0;
}
