#ifndef SETS_H
#define SETS_H

#include <stdint.h>

/* What a stream draws from, by TRIALS.md. */

#define MOODS 8U
#define PICKS 16U
#define SPOILS 12U
#define SETS 2U

struct spoil {
    uint8_t which; /* byte of the record: 0 kind, 1 seat, 2 number, 3 value */
    uint8_t base;
    uint8_t most;
};

struct set {
    unsigned scripts; /* it may pick so many, from the first on */
    uint8_t picks[MOODS][PICKS];
    struct spoil spoils[SPOILS];
};

extern const struct set sets[SETS];

#endif
