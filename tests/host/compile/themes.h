/* The themes of the tests of the compiler, in the order in which they run. */
#ifndef THEMES_H
#define THEMES_H

void test_fields(void);
void test_cells(void);
void test_lines(void);
void test_damage(void);
void test_refusals(void);
void test_rooms(void);
void test_plays(void);

#endif
