#ifndef SCRIPTS_H
#define SCRIPTS_H

#include <stdint.h>

/* The scripts of TRIALS.md: one list for all sets. */

struct row {
    uint8_t kind; /* 16 more: any seat */
    uint8_t number;
    uint8_t number_most;
    uint8_t value;
    uint8_t value_step;
    uint8_t value_most;
    uint8_t times_most;
};

#define SCRIPTS 74U

extern const struct row rows[];
extern const uint16_t first_row[SCRIPTS + 1];

#endif
