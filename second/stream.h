#ifndef STREAM_H
#define STREAM_H

#include <stdint.h>

#include "bench.h"
#include "sets.h"

/* The event streams of the trials, as TRIALS.md describes them. A stream never
   looks at a bench. */
struct stream {
    uint64_t x;
    const struct set *set;
    unsigned mood;
    unsigned seat;
    uint16_t row;
    uint16_t stop;
    unsigned left;
};

/* The set is below SETS. */
struct stream stream_begin(uint32_t seed, unsigned set);
struct event stream_next(struct stream *stream);

/* A number below `below`, which is 1 to 256. */
unsigned stream_draw(struct stream *stream, unsigned below);

#endif
