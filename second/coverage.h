#ifndef COVERAGE_H
#define COVERAGE_H

/* Prints how often the trials of the three lists reach each item; not 0 if one is
   not reached, if the picks of the sets are not as TRIALS.md tells, or if the two
   sights of a pair differ. */
int coverage_run(void);

#endif
