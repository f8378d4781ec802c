#ifndef ASKED_H
#define ASKED_H

#include <stdbool.h>
#include <stdint.h>

#include "settings.h"

#define ASKED_NUMBERS 4U

/* A line `CLOCK DIVISOR LCR ROOM` as far as it has been taken: LCR in
   hexadecimal digits, the others in decimal, of any length (S73). All 0 before
   its first character. */
struct asked {
    uint64_t numbers[ASKED_NUMBERS];
    unsigned at; /* the number that stands last so far */
    bool has_digit;
    bool faulty;
};

void asked_take(struct asked *asked, int character);

/* False where what was taken is not four numbers with one blank between two of
   them and nothing else. */
bool asked_question(const struct asked *asked, struct question *question);

#endif
