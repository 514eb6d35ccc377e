/* Samples of the wires while a stream's events go over them. */
#ifndef SAMPLES_H
#define SAMPLES_H

#include "lines.h"
#include "streams.h"

/* The first events of the stream, with every level of the lines sampled this often. Reset pulses and
 * sensor readings are not on the wires. */
void sample_stream(struct lines *lines, const struct stream *stream, size_t events, unsigned often);

#endif
