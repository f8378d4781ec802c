#ifndef STARTS_H
#define STARTS_H

#include "bench.h"

#define STARTS 2U

/* The benches that a stream may start from, by their numbers in TRIALS.md. */
extern struct bench (*const starts[STARTS])(void);

#endif
