#ifndef PAIRS_H
#define PAIRS_H

#include <stdint.h>

#include "pair_tally.h"
#include "trials.h"

#define PAIRS 8U

/* The pairs of lessons that are run each time. */
extern const struct trial pairs[PAIRS];

/* TRIALS.md, Pairs: the digest of all that both benches gave, and of each lesson
   the sight of the one seat. */
struct sights {
    uint64_t digest;
    uint64_t seen[SIDES];
};

/* Where the tally is not NULL, what is reached is counted in it. */
struct sights pair_sights(struct trial trial, struct pair_tally *tally);

#endif
