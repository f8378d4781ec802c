#ifndef LISTING_H
#define LISTING_H

#include <stdbool.h>

#include "bench.h"
#include "saves.h"

/* Records from standard input, given to the bench, and the listing on standard
   output; the bench is saved on the way as asked, and its tallies are told on
   standard error at the end. */
int listing_run(struct bench bench, const struct saves *saves);

/* The listing, each line with the record's bytes in hex before it, and behind it a
   letter's marks and how many remain behind it (S135), and the tallies of TRIALS.md,
   Tally digest. */
int listing_show(struct bench bench);

#endif
