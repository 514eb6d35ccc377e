/* The themes of the tests of the bus, in the order in which they run. */
#ifndef THEMES_H
#define THEMES_H

void test_standings(void);
void test_lengths(void);
void test_order(void);
void test_events(void);
void test_sensors(void);
void test_counts(void);
void test_pixels(void);
void test_traffic(void);
void test_alone(void);
void test_apart(void);
void test_plays(void);

#endif
