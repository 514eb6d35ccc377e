/* The model in the place of the library, to try the tests themselves: put before each of the model's
 * sources, this gives its calls the library's names, and the rest of it names of its own. */
#define model_reset pcf8820_reset
#define model_step pcf8820_step
#define model_run pcf8820_run
#define model_bus_step pcf8820_bus_step
#define model_counts pcf8820_counts
#define model_glass pcf8820_glass
#define model_place pcf8820_place
#define model_pulses pcf8820_pulses
#define model_pulse_row pcf8820_pulse_row
#define model_compile pcf8820_compile
#define model_wires_start pcf8820_wires_start
#define model_wires pcf8820_wires

#define model_allowed stand_in_allowed
#define model_row stand_in_row
#define model_listed stand_in_listed
#define model_pixels_fit stand_in_pixels_fit
#define mend_counts stand_in_mend_counts
#define take_display_byte stand_in_take_display_byte
#define model_plain stand_in_plain
#define plain_cells stand_in_plain_cells
#define plain_registers stand_in_plain_registers
#define list_next stand_in_list_next
#define list_ended stand_in_list_ended
#define list_refusal stand_in_list_refusal
