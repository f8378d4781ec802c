#ifndef LOOPBACK_SPOONS_H
#define LOOPBACK_SPOONS_H

#include "steps.h"

#define LOOPBACK_SPOONS 16U

/* Ticket 7: "Loopback for the self-test lesson." */
extern const struct spoon loopback_spoons[LOOPBACK_SPOONS];

#endif
