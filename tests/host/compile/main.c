/* Holds the library's compiler against the model's. `quick` as the argument makes a sample only. */
#include "compile_calls.h"
#include "harness.h"
#include "themes.h"

#include <string.h>

int main(int argc, char **argv)
{
    quick = argc > 1 && strcmp(argv[1], "quick") == 0;
    harness_start();
    compile_start();
    test_fields();
    test_cells();
    test_lines();
    test_damage();
    test_refusals();
    test_rooms();
    test_plays();
    report_calls("compiler tests");
    return 0;
}
