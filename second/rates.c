/* The divisor list, computed. Which rates are listed comes from document 01;
   the divisors come from its rule alone. */
#include "rates.h"

#include <inttypes.h>
#include <stdio.h>

#include "output.h"

/* "1.8432 MHz", "2.4576 MHz", "3.072 MHz", in tenths of a hertz as the rates
   are in tenths of a baud. */
static const uint64_t clock_tenths[CLOCKS] = {18432000, 24576000, 30720000};

/* "Rates in tenths of a baud" */
static const uint32_t rate_tenths[RATES] = {
    500, 750, 1100, 1345, 1500, 3000, 6000, 12000, 18000,
    20000, 24000, 36000, 48000, 72000, 96000, 192000, 384000, 560000,
};

/* "and 560000 for the first clock only" */
unsigned rates_count(uint64_t clock)
{
    if (clock >= CLOCKS)
        return 0;
    return clock == 0 ? RATES : RATES - 1;
}

static uint64_t distance(unsigned clock, uint32_t rate, unsigned divisor)
{
    uint64_t brought = (uint64_t)16 * divisor * rate;
    uint64_t wanted = clock_tenths[clock];
    return brought > wanted ? brought - wanted : wanted - brought;
}

/* "Each is the divisor d that brings 16 times d times the rate nearest to the
   clock; there is no tie." */
static unsigned nearest_divisor(unsigned clock, uint32_t rate, bool *tie)
{
    unsigned nearest = 1;
    bool shared = false;
    for (unsigned divisor = 2; divisor <= LARGEST_DIVISOR; divisor += 1) {
        uint64_t here = distance(clock, rate, divisor);
        uint64_t best = distance(clock, rate, nearest);
        if (here < best)
            nearest = divisor;
        if (here <= best)
            shared = here == best;
    }
    *tie = *tie || shared;
    return nearest;
}

struct rates rates_listed(void)
{
    struct rates rates = {0};
    for (unsigned clock = 0; clock < CLOCKS; clock += 1)
        for (unsigned i = 0; i < rates_count(clock); i += 1)
            rates.divisors[clock][i] = nearest_divisor(clock, rate_tenths[i], &rates.tie);
    return rates;
}

struct outcome rates_divisor(const struct rates *rates, uint64_t clock, uint64_t tenths)
{
    for (unsigned i = 0; i < rates_count(clock); i += 1)
        if (rate_tenths[i] == tenths)
            return accepted(rates->divisors[clock][i]);
    return refused(REFUSAL_NOT_LISTED);
}

struct outcome rates_tenths(const struct rates *rates, uint64_t clock, uint64_t divisor)
{
    for (unsigned i = 0; i < rates_count(clock); i += 1)
        if (rates->divisors[clock][i] == divisor)
            return accepted(rate_tenths[i]);
    return refused(REFUSAL_NOT_LISTED);
}

static void print_pair(const struct rates *rates, uint32_t rate, unsigned clock)
{
    struct outcome outcome = rates_divisor(rates, clock, rate);
    printf("%u %" PRIu32 " %u %03X\n", clock, rate, (unsigned)outcome.refusal, outcome.answer);
}

static void print_single_pairs(const struct rates *rates)
{
    static const struct { uint32_t rate; unsigned clock; } pairs[] = {
        {0, 0}, {1, 0}, {4294967295, 0}, {500, 4}, {500, 255}, {12000, 255},
        {560000, 1}, {560000, 2}, {9600, 0}, {65536, 0}, {4294967295, 255},
    };
    for (size_t i = 0; i < sizeof pairs / sizeof pairs[0]; i += 1)
        print_pair(rates, pairs[i].rate, pairs[i].clock);
}

int rates_run(void)
{
    struct rates rates = rates_listed();
    for (unsigned clock = 0; clock <= CLOCKS; clock += 1)
        for (unsigned i = 0; i < RATES; i += 1)
            for (uint32_t rate = rate_tenths[i] - 1; rate <= rate_tenths[i] + 1; rate += 1)
                print_pair(&rates, rate, clock);
    print_single_pairs(&rates);
    return output_result(rates.tie ? 1 : 0);
}
