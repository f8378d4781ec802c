#ifndef COMPARE_H
#define COMPARE_H

#include "bench.h"
#include "hailstoat.h"

/* Says what is wrong, and ends the test. */
void fail(const char *what);

/* 1 if the word tells this outcome and this output, and nothing else. */
int told(uint64_t word, struct outcome outcome, unsigned output);

/* Plays the event on both benches, and fails, naming `what` and `at`, where
   anything that C sees of them differs. Returns its refusal. */
unsigned one_event(struct hailstoat_bench *lent, struct bench *second, const char *what, unsigned long at,
                   struct event e);

#endif
