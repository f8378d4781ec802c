#ifndef TELLING_H
#define TELLING_H

#include <stdbool.h>

#include "bench.h"
#include "page.h"
#include "source.h"

enum show { SHOW_NOTHING, SHOW_EACH, SHOW_END };

/* What is told of the records beside the lines of the listing: each in words, and
   the state behind each or behind the last. */
struct telling {
    bool explains;
    enum show show;
};

/* Gives the records to the bench and tells of them. The page is where each is
   made; it says whether they are printed. */
void telling_run(struct bench bench, struct source *source, struct telling telling, struct page *page);

#endif
