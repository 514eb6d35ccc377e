/* The names of the registers. */
#ifndef NAMES_H
#define NAMES_H

/* By the words H to OC of a record: as drawing lists have them; h, x, y and gr are not in lists. */
extern const char *const register_names[];

#endif
