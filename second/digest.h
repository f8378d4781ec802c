#ifndef DIGEST_H
#define DIGEST_H

#include <stdint.h>

#include "bench.h"

/* TRIALS.md, Digest, Letter digest and Tally digest. All start at 0, and none
   depends on another. */
struct digests {
    uint64_t digest;
    uint64_t letters;
    uint64_t ledgers;
};

uint64_t digest_add(uint64_t digest, uint64_t value);

/* TRIALS.md, Tally digest: the seat whose tallies are asked after an event. */
#define LEDGER_SEATS 16U

/* Step 1: what an event gave, with the bench after it. */
uint64_t digest_outcome(uint64_t digest, const struct bench *bench, struct outcome outcome);

/* TRIALS.md, Letter digest: what an event gave. */
uint64_t digest_letter(uint64_t digest, struct outcome outcome);

/* Gives the event to the bench; then steps 1 and 2 of Digest, the places in
   turn too, Letter digest and Tally digest. */
void digests_event(struct digests *digests, struct bench *bench, struct event event);

#endif
