#ifndef TRIALS_H
#define TRIALS_H

#include <stddef.h>
#include <stdint.h>

struct trial {
    uint32_t seed;
    uint64_t count;
    unsigned set;   /* below SETS */
    unsigned start; /* below STARTS */
};

#define TRIALS 23U

/* The streams that are run each time. */
extern const struct trial trials[TRIALS];

/* One stream, one trial of saved benches, one pair, or all of the three lists: a
   line each of seed, count, digest, letter digest and tally digest; of a pair of
   seed, count, digest, left sight and right sight. */
int trials_run_one(struct trial trial);
int trials_run_one_of_images(struct trial trial);
int trials_run_one_of_pairs(struct trial trial);
int trials_run_all(void);

/* The stream's four-byte records on standard output. */
int trials_generate(struct trial trial);

#endif
