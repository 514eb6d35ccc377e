/* Holds the library's bus of four chips against the model's. `quick` as the argument makes a sample
 * only. */
#include "bus_calls.h"
#include "themes.h"

#include <string.h>

int main(int argc, char **argv)
{
    quick = argc > 1 && strcmp(argv[1], "quick") == 0;
    bus_start();
    test_standings();
    test_lengths();
    test_order();
    test_events();
    test_sensors();
    test_counts();
    test_pixels();
    test_traffic();
    test_alone();
    test_apart();
    test_plays();
    bus_canaries();
    report_calls("bus tests");
    return 0;
}
