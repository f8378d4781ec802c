#ifndef TASTING_H
#define TASTING_H

#include "bench.h"
#include "image_buffer.h"

/* What the steps of a spoon work on: a bench, and an image of it at place 0. */
struct tasting {
    struct bench bench;
    struct kept saved;
};

/* What a step gives: an event's outcome, or that of what stands for one. */
struct outcome tasting_step(struct tasting *tasting, struct event event);

#endif
