#ifndef WATCH_H
#define WATCH_H

#include <stdbool.h>

#include "bench.h"

/* One event with the bench on both sides of it. */
struct moment {
    const struct bench *before;
    const struct bench *after;
    struct event event;
    struct outcome outcome;
};

/* Of an accepted event of a seat: a character comes in, from the wire; or so, or
   from the shift register. In loopback "an arrival changes nothing". */
bool moment_arrives(const struct moment *moment);
bool moment_receives(const struct moment *moment);

/* What has become of the characters in a seat's receive queue and cannot be
   told from the queue any more: for the tallies alone. Sets of characters hold
   the one at place n as bit n, the oldest as bit 0. */
struct watch {
    bool cleared;            /* an LSR read took the oldest's marks, in FIFO mode */
    bool restored_cleared;   /* the same, and before it was saved */
    unsigned spared;         /* those that were behind the oldest at an LSR read, in FIFO mode */
    unsigned restored;       /* those that were read from an image */
    bool replacing;          /* it took another's place, in 16450 mode */
    unsigned replaced_marks; /* of that one */
    unsigned taken_marks;    /* of the character taken last */
    bool emptied;            /* FCR took a marked one away, and none has arrived since */
    bool reset;              /* the same, by a master reset */
};

struct watches {
    struct watch seats[SEATS];
};

/* The watches after the event; the event may be refused. */
void watches_event(struct watches *watches, const struct moment *moment);

/* The watches after the bench was saved and read back. */
void watches_restore(struct watches *watches, const struct bench *bench);

#endif
