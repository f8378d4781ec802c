#ifndef TAKER_H
#define TAKER_H

#include <stddef.h>

/* Who is given lines that are made, one by one. */
struct taker {
    void (*take)(void *with, const char *line, size_t length);
    void *with;
};

/* Prints them, each followed by a line feed. */
struct taker taker_printing(void);

#endif
