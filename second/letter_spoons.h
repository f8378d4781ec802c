#ifndef LETTER_SPOONS_H
#define LETTER_SPOONS_H

#include "steps.h"

#define LETTER_SPOONS 7U

/* Ticket 6: "its marks and how many remain behind it". */
extern const struct spoon letter_spoons[LETTER_SPOONS];

#endif
