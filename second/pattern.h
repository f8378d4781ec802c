#ifndef PATTERN_H
#define PATTERN_H

#include <stdbool.h>

/* Whether a piece is such as a pattern says. In a pattern stand for more than
   themselves:

   %n  a decimal number without leading zeros
   %b  a byte in two hexadecimal capitals
   %c  a letter with its character
   %d  a letter below 21, %h one above 7E: two digits alone
   %l  any letter
   %m  the marks of an arrival, or none
   *   any characters, also none */
bool pattern_fits(const char *pattern, const char *text);

#endif
