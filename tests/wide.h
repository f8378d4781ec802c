#ifndef WIDE_H
#define WIDE_H

/* Numbers past a byte, against the second program; fails where one is cut. */
void wide_numbers(void);

#endif
