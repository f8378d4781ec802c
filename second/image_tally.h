#ifndef IMAGE_TALLY_H
#define IMAGE_TALLY_H

#include <stdint.h>

#include "image.h"
#include "image_grounds.h"
#include "image_ledger.h"
#include "tally.h"

/* The header, the controller and one seat but its tallies, of whose bytes some are
   always 0. */
#define IMAGE_FIELD_BYTES ((unsigned)IMAGE_AT_SEATS + (unsigned)IMAGE_OLDER_SEAT_BYTES)

/* "the time-out count rises, up to 4" */
#define TIMEOUT_COUNTS 5U

/* Letters of characters that a bench was saved with and that were read back with
   it, with the words they are printed by. */
#define RESTORED_ITEMS(ITEM) \
    ITEM(16450, "16450 marked") \
    ITEM(AFTER_LSR, "16450 with a mark that an LSR read has cleared in LSR") \
    ITEM(FIFO, "FIFO marked") \
    ITEM(CLEARED, "FIFO whose marks an LSR read had cleared before") \
    ITEM(BEHIND, "FIFO with a marked one behind it from the image too")

#define RESTORED_NAME(name, words) RESTORED_##name,
enum restored { RESTORED_ITEMS(RESTORED_NAME) RESTORED_COUNT };
#undef RESTORED_NAME

/* Ticket 7: "A saved MCR may now be up to 1F." Inside is with MCR bit 4 set. */
#define LOOPED_ITEMS(ITEM) \
    ITEM(SAVED, "saved seats inside") \
    ITEM(SAVED_OTHER, "saved seats inside with levels that are not the inputs") \
    ITEM(SAVED_CHANGES, "saved seats inside with a change bit") \
    ITEM(SAVED_LEAVING, "saved seats inside with a character that is to leave") \
    ITEM(READ, "damaged images read whose only wound put a seat inside") \
    ITEM(READ_OUT, "damaged images read whose only wound put a seat outside") \
    ITEM(READ_1F, "damaged images read whose only wound made MCR 1F") \
    ITEM(REFUSED_20, "damaged images refused by 15 whose only wound made MCR 20")

#define LOOPED_NAME(name, words) LOOPED_##name,
enum looped { LOOPED_ITEMS(LOOPED_NAME) LOOPED_COUNT };
#undef LOOPED_NAME

/* What the trials of saved benches reach. */
struct image_tally {
    uint64_t stops;
    uint64_t held[IMAGE_FIELD_BYTES]; /* the byte was not 0 in a saved bench, of any seat */
    unsigned lost_at[SEATS]; /* the time-out count above 0 that an arrival lost there has found */
    uint64_t left[TIMEOUT_COUNTS]; /* saved benches with a seat as such an arrival left it */
    struct watches watches;
    uint64_t restored[RESTORED_COUNT];
    uint64_t looped[LOOPED_COUNT];
    uint64_t damages;
    uint64_t read;
    uint64_t written_back; /* as they were read */
    uint64_t too_short_for_header;
    uint64_t too_short_for_version;
    uint64_t wrong_mark;
    uint64_t unknown_version;
    uint64_t no_bench;
    uint64_t alone[GROUNDS];          /* the ground was the only one */
    uint64_t wounded[IMAGE_BYTES];    /* the byte was the only one, and all was lent */
    uint64_t wounded_older[IMAGE_OLDER_BYTES]; /* the same in a version 1 image */
    uint64_t older; /* version 1 images read that were not damaged */
    struct keepings keepings;
};

/* A damaged image as it was lent, what it was made from, and what came of it. The
   position is that of the only byte replaced; IMAGE_BYTES if it was not the only
   one. */
struct damage {
    const uint8_t *lent;
    size_t length;
    uint64_t place;
    unsigned position;
    const uint8_t *undamaged;
    enum refusal refusal;
};

/* Before the first event of a trial. */
void image_tally_begin(struct image_tally *tally);

void image_tally_event(struct image_tally *tally, const struct moment *moment);
void image_tally_stop(struct image_tally *tally, const uint8_t image[IMAGE_BYTES]);

/* A version 1 image was read that was not damaged. */
void image_tally_older(struct image_tally *tally);

void image_tally_damage(struct image_tally *tally, const struct damage *damage);

/* Prints it; not 0 if something is not reached, if there are fewer damaged
   images than there are to be, or if one was written back otherwise than read. */
int image_tally_print(const struct image_tally *tally);

#endif
