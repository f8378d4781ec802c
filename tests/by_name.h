#ifndef BY_NAME_H
#define BY_NAME_H

#include <stddef.h>

#include "hailstoat.h"

/* The bench that is worked. */
extern struct hailstoat_bench worked;

/* Fails, naming `what`, where the two differ. */
void is(const char *what, unsigned got, unsigned wanted);

/* Plays an event that may not be refused; returns its answer. */
unsigned play(uint32_t kind, uint32_t seat, uint32_t number, unsigned value);

void is_refused(const char *what, uint32_t kind, uint32_t number, unsigned value, unsigned refusal);

void writes(uint32_t seat, uint32_t number, unsigned byte);

/* From power-up: a divisor, and eight bits with parity. */
void set_up(uint32_t seat);

/* Each part on the bench at power-up; returns their count. */
size_t each_from_power_up(void (*const parts[])(void), size_t count);

#endif
