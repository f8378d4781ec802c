#ifndef FULL_H
#define FULL_H

/* Streams of events over benches a few characters short of the largest tally,
   each event as the second program has it. */
void full_tallies(void);

#endif
