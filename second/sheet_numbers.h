#ifndef SHEET_NUMBERS_H
#define SHEET_NUMBERS_H

#include "rates.h"
#include "taker.h"

/* Lines `CLOCK DIVISOR LCR ROOM` to try a writer with. */
void sheet_numbers(const struct rates *rates, struct taker taker);

/* Prints them. */
int sheet_numbers_run(void);

#endif
