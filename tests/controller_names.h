#ifndef CONTROLLER_NAMES_H
#define CONTROLLER_NAMES_H

#include <stddef.h>

/* As names_mean, for the controller's names; returns how many ways there are to work a bench by them. */
size_t controller_names_mean(void);

#endif
