#ifndef SETTINGS_H
#define SETTINGS_H

#include <stdbool.h>
#include <stddef.h>
#include <stdint.h>

#include "outcome.h"
#include "rates.h"

/* The longest line is `134.5,E,5,1.5` (S70). */
#define SETTINGS_MOST 13U

/* What a line is read into; nothing but the refusal where it is refused. */
struct settings {
    enum refusal refusal;
    unsigned divisor;
    unsigned lcr;
};

/* What a line is written from. */
struct question {
    uint64_t clock;
    uint64_t divisor;
    uint64_t lcr;
    uint64_t room;
};

/* Whether some line gives the LCR byte. */
bool settings_gives(uint64_t lcr);

struct settings settings_read(const struct rates *rates, uint64_t clock,
                              const char *line, size_t length);

/* Writes the line at the beginning of the lent bytes, of which there are as
   many as the room says or, where it says more, SETTINGS_MOST. The answer is
   the line's length. */
struct outcome settings_write(const struct rates *rates, const struct question *question,
                              char *lent);

#endif
