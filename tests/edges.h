#ifndef EDGES_H
#define EDGES_H

#include <stddef.h>

#include "hailstoat.h"

struct step {
    uint32_t kind;
    uint32_t seat;
    uint32_t number;
    uint8_t value;
};

#define EDGE_STEPS 6

/* Some accepted steps from power-up; there, one step that is accepted and one,
   past the edge, that is refused. Where `arrived` is not 0, seat 0 is held to have
   received so many before, and all of them read: no steps come so far. */
struct edge {
    const char *what;
    struct step steps[EDGE_STEPS];
    size_t count;
    struct step within;
    struct step past;
    unsigned refusal;
    uint32_t arrived;
};

extern const struct edge edge_list[];
extern const size_t edge_count;

/* 1 if the step past the edge has the refusal and the answer FFF and leaves
   every field of the bench as it was, and the step within is not refused. */
int edge_holds(const struct edge *edge);

#endif
