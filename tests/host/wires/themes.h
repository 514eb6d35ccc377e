/* The themes of the tests of the wires, in the order in which they run. */
#ifndef THEMES_H
#define THEMES_H

void test_starts(void);
void test_marked(void);
void test_messages(void);
void test_cuts(void);
void test_rooms(void);
void test_damage(void);
void test_refusals(void);
void test_unclear_counts(void);
void test_states(void);

#endif
