/* Holds the library's reading of the wires against the model's. `quick` as the argument makes a sample
 * only. */
#include "themes.h"
#include "wires_calls.h"

#include <string.h>

int main(int argc, char **argv)
{
    quick = argc > 1 && strcmp(argv[1], "quick") == 0;
    wires_calls_start();
    test_starts();
    test_marked();
    test_messages();
    test_cuts();
    test_rooms();
    test_damage();
    test_refusals();
    test_unclear_counts();
    test_states();
    report_calls("wires tests");
    return 0;
}
