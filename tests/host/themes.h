/* The themes of the host tests, in the order in which they run. */
#ifndef THEMES_H
#define THEMES_H

void test_resets(void);
void test_commands(void);
void test_answers(void);
void test_display(void);
void test_counts(void);
void test_counting(void);
void test_pixels(void);
void test_runs(void);
void test_run_counts(void);
void test_refusals(void);
void test_events(void);

#endif
