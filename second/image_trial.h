#ifndef IMAGE_TRIAL_H
#define IMAGE_TRIAL_H

#include "digest.h"
#include "image_tally.h"
#include "trials.h"

#define IMAGE_TRIALS 12U

/* The trials of saved benches that are run each time. */
extern const struct trial image_trials[IMAGE_TRIALS];

/* TRIALS.md, Saved benches: the digests. Where the tally is not NULL, what is
   reached is counted in it. */
struct digests image_trial_digests(struct trial trial, struct image_tally *tally);

#endif
