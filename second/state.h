#ifndef STATE_H
#define STATE_H

#include <stdbool.h>

#include "bench.h"
#include "page.h"

/* docs/TELLING.md, `--show`: "a page for each seat in use, in order, and one for
   the controller". The page is where they are made, one after the other. */
void state_tell(struct page *page, const struct bench *bench);

/* "A seat is in use where .." */
bool state_in_use(const struct channel *seat);

#endif
