#ifndef LEDGER_H
#define LEDGER_H

#include <stdint.h>

#include "outcome.h"

/* Ticket 8: "five 32-bit tallies of received characters since power-up". They are
   called a ledger here, since a tally of this program is what coverage counts.
   The fifth, "still queued", is not kept: it is the number in the receive queue. */
struct ledger {
    uint32_t arrived;
    uint32_t read;
    uint32_t lost;    /* "lost by overrun" */
    uint32_t dropped; /* "dropped by emptying" */
};

#define LEDGER_MOST UINT32_MAX

/* The order in which the five are handed out and saved. */
enum figure {
    FIGURE_ARRIVED = 0,
    FIGURE_READ = 1,
    FIGURE_LOST = 2,
    FIGURE_DROPPED = 3,
    FIGURE_QUEUED = 4,
    FIGURES = 5
};

/* The five of a seat; where refused there are none. */
struct ledger_answer {
    enum refusal refusal;
    uint32_t figures[FIGURES];
};

#endif
