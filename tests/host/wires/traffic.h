/* Random traffic on the lines, with the events in it. */
#ifndef TRAFFIC_H
#define TRAFFIC_H

#include "lines.h"

/* Every level sampled once, some levels several times, and lines that are noisy besides. */
extern const struct sampling each_once, some_often, noisy;

/* Messages of both directions, some of them cut in a byte, clocks and STOPs between messages, up to
 * this many samples or somewhat more. */
void clean_traffic(struct lines *lines, struct sampling sampling, size_t samples);

/* The same, with unclear samples here and there. */
void unclear_traffic(struct lines *lines, struct sampling sampling, size_t samples);

#endif
