#ifndef SPOONS_H
#define SPOONS_H

/* Document 01's tasting spoons, printed example, burnt batches and edges, and
   cases of the tickets, one line a case; not 0 if one differs. */
int spoons_run(void);

#endif
