#ifndef TELLING_COVERAGE_H
#define TELLING_COVERAGE_H

#include "telling.h"

/* Tells of the records in words, with the state behind each, and counts which
   pieces, words and shapes of docs/TELLING.md they have. 1 where one is never
   told, where a piece is none of the page's, and where a page is not as it should
   be. */
int telling_coverage(struct bench bench, struct source *source, struct page *page);

#endif
