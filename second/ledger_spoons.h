#ifndef LEDGER_SPOONS_H
#define LEDGER_SPOONS_H

#include "steps.h"

#define LEDGER_SPOONS 16U

/* Ticket 8: "A tally under each seat." */
extern const struct spoon ledger_spoons[LEDGER_SPOONS];

#endif
