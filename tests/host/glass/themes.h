/* The themes of the tests of the glass, in the order in which they run. */
#ifndef THEMES_H
#define THEMES_H

void test_modes(void);
void test_levels(void);
void test_whole_glass(void);
void test_edges(void);
void test_pulses(void);
void test_row_buffers(void);

#endif
