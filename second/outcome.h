#ifndef OUTCOME_H
#define OUTCOME_H

#include <stdbool.h>

/* "The answer of every refusal is FFF and nothing changes." */
#define ANSWER_REFUSED 0xFFFU

enum refusal {
    REFUSAL_NONE = 0,
    REFUSAL_SEAT_ABOVE = 1,      /* "seat (or line) above 7" */
    REFUSAL_NUMBER_ABOVE = 2,    /* "register above 7, port above 1" */
    REFUSAL_KIND_ABOVE = 3,      /* "kind above 8" */
    REFUSAL_SHORT = 4,           /* "record of 1 to 3 bytes at the end of input" */
    REFUSAL_NO_DIVISOR = 5,      /* "arrival or character time while the divisor is 0" */
    REFUSAL_MARKS_ABOVE = 6,     /* "marks above 7 only" */
    REFUSAL_LEVELS_ABOVE = 7,    /* "modem levels above 15" */
    REFUSAL_NOT_READY = 8,       /* "controller not ready: .." */
    REFUSAL_NOT_SERVED = 9,      /* "not served: .." */
    REFUSAL_NOT_LISTED = 10,     /* "rate or clock not in the divisor list" */
    REFUSAL_NO_SETTINGS = 11,    /* "any other line or an LCR byte that no line gives" */
    REFUSAL_NO_ROOM = 12,        /* "a lent buffer too short"; "no room or below 5 bytes" */
    REFUSAL_NO_MARK = 13,        /* "wrong mark" */
    REFUSAL_NO_VERSION = 14,     /* "unknown version" */
    REFUSAL_NO_BENCH = 15,       /* "exactly for a field outside its range in document 01 .." */
    REFUSAL_DATA_BEYOND = 16,    /* "data beyond the word length" */
    REFUSAL_PARITY_OFF = 17,     /* "parity mark with parity off" */
    REFUSAL_BREAK_WITH_DATA = 18, /* "break with data" */
    REFUSAL_ARRIVED_FULL = 19     /* "where arrived would pass its largest value" */
};

/* Ticket 6: "The RBR answer gains these figures". Of an outcome that is no
   letter both are 0. */
struct outcome {
    enum refusal refusal;
    unsigned answer;
    bool is_letter;
    unsigned marks;
    unsigned behind; /* "how many remain behind it" */
};

static inline struct outcome accepted(unsigned answer)
{
    return (struct outcome){.refusal = REFUSAL_NONE, .answer = answer};
}

static inline struct outcome accepted_letter(unsigned byte, unsigned marks, unsigned behind)
{
    return (struct outcome){REFUSAL_NONE, byte, true, marks, behind};
}

static inline struct outcome refused(enum refusal refusal)
{
    return (struct outcome){.refusal = refusal, .answer = ANSWER_REFUSED};
}

#endif
