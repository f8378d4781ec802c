#ifndef TALLY_NAMES_H
#define TALLY_NAMES_H

#include <stddef.h>

/* As names_mean, for the tallies; returns how many ways there are to work a bench by them. */
size_t tally_names_mean(void);

#endif
