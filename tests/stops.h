#ifndef STOPS_H
#define STOPS_H

#include "bench.h"
#include "hailstoat.h"
#include "stream.h"

#define REFUSALS 20

/* A pair of benches that are the same: the library's and the second program's. */
struct pair {
    struct hailstoat_bench lent;
    struct bench second;
};

/* The stops of one stream: what is drawn for them, the benches over which damaged
   images are read, and what was met, by the number of the refusal. */
struct stops {
    struct stream picker; /* only its draws are used */
    struct pair other;
    unsigned long saved[REFUSALS];
    unsigned long restored[REFUSALS];
};

/* What is drawn depends on the seed alone. */
struct stops stops_begin(uint32_t seed);

/* Now and then saves the benches, compares the buffers byte for byte, reads damaged
   images over another pair, and goes on with what is restored from the sound one
   into a bench that was another. Fails, naming `what` and `at`, where anything that
   C sees differs from the second program's. */
void stop_sometimes(struct stops *stops, struct pair *pair, const char *what, unsigned long at);

/* Adds up what was met. */
void stops_add(struct stops *all, const struct stops *some);

/* Fails where a save or a restore, or a refusal of either, was never met; prints how many there were. */
void stops_told(const struct stops *all);

#endif
