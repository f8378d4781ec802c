#ifndef RATES_H
#define RATES_H

#include <stdbool.h>
#include <stdint.h>

#include "outcome.h"

/* "Clocks are numbered 0 to 2." */
#define CLOCKS 3U
#define RATES 18U
#define LARGEST_DIVISOR 65535U

/* The divisors of the list, in the order of its rates. */
struct rates {
    unsigned divisors[CLOCKS][RATES];
    bool tie; /* some rate has two nearest divisors */
};

/* The search for all of them takes a moment, so who asks often asks one list. */
struct rates rates_listed(void);

/* How many rates, from the first on, are listed at a clock; 0 at no clock of
   the list. */
unsigned rates_count(uint64_t clock);

/* The divisor of a rate in tenths of a baud, and the rate of a divisor. */
struct outcome rates_divisor(const struct rates *rates, uint64_t clock, uint64_t tenths);
struct outcome rates_tenths(const struct rates *rates, uint64_t clock, uint64_t divisor);

/* Prints the rates run; not 0 if some rate has two nearest divisors. */
int rates_run(void);

#endif
