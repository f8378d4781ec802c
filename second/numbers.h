#ifndef NUMBERS_H
#define NUMBERS_H

#include <stdbool.h>
#include <stdint.h>

/* Stands for itself and for every larger number, so that digits of any length
   are a number: all that is asked of one is how it compares with a smaller. */
#define NUMBER_MOST UINT64_MAX

/* Puts a digit of the base, 10 or 16, behind the number. False, and the number
   as it was, where the character is none. */
bool number_add(uint64_t *number, unsigned base, int character);

/* A word of decimal digits, one or more. */
bool number_parse(const char *word, uint64_t *number);

#endif
