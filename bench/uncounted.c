/* The model's source once more, under names of its own and with nothing in the place of the mending: what
 * the model takes longer for a display byte is what mending costs it. */
#include "uncounted.h"

#include "display.h"

#define mend_counts(chip, byte) true

#define model_row uncounted_row
#define model_listed uncounted_listed
#define model_allowed uncounted_allowed
#define model_pixels_fit uncounted_pixels_fit
#define model_reset uncounted_reset
#define model_step uncounted_step
#define model_run uncounted_run

#include "model.c"
