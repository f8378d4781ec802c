#ifndef SHEET_LINES_H
#define SHEET_LINES_H

#include "rates.h"
#include "taker.h"

/* Lines to try a reader with: those of sheet_faults; then each settings line of
   the clock, which is below CLOCKS, with every line that is one character away
   from it. */
void sheet_lines(const struct rates *rates, unsigned clock, struct taker taker);

/* Prints them. */
int sheet_lines_run(unsigned clock);

#endif
