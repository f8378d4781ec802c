#ifndef IMAGE_LEDGER_H
#define IMAGE_LEDGER_H

#include <stddef.h>
#include <stdint.h>

#include "bench.h"

/* What the trials of saved benches are to reach of ticket 8, each with the words
   it is printed by. Inside is with MCR bit 4 set. */
#define KEEPING_ITEMS(ITEM) \
    ITEM(SAVED_READ, "saved seats with read above 0") \
    ITEM(SAVED_LOST, "saved seats with lost above 0") \
    ITEM(SAVED_DROPPED, "saved seats with dropped above 0") \
    ITEM(SAVED_QUEUED, "saved seats with queued above 0") \
    ITEM(SAVED_ALL, "saved seats with all five above 0") \
    ITEM(SAVED_MOST, "saved seats with arrived at its largest value") \
    ITEM(SAVED_STUCK, "saved seats inside at that value with a character that is to leave") \
    ITEM(OTHER, "damaged images read with other tallies than were saved") \
    ITEM(OTHER_ARRIVED, "damaged images read with arrived of another top byte") \
    ITEM(OTHER_READ, "damaged images read with read of another top byte") \
    ITEM(OTHER_LOST, "damaged images read with lost of another top byte") \
    ITEM(OTHER_DROPPED, "damaged images read with dropped of another top byte") \
    ITEM(OTHER_LESS, "damaged images read with arrived less than was saved") \
    ITEM(OTHER_MOST, "damaged images read with arrived come to its largest value") \
    ITEM(AHEAD_19, "events behind a damaged image refused by 19") \
    ITEM(SUM_ONE_MORE, "sum alone to blame, one more than arrived") \
    ITEM(SUM_ONE_LESS, "sum alone to blame, one less than arrived") \
    ITEM(SUM_WRAPPED, "sum alone to blame, the same in 32 bits") \
    ITEM(SUM_WRAPPED_TWICE, "sum alone to blame, the same in 32 bits and twice too large") \
    ITEM(MISCOUNT_WIDE, "miscount alone to blame, the same in its low byte") \
    ITEM(MISCOUNT_TALLY, "miscount alone to blame, by the tally") \
    ITEM(MISCOUNT_QUEUE, "miscount alone to blame, by the queue") \
    ITEM(OLDER_READ, "damaged version 1 images read") \
    ITEM(OLDER_NO_BENCH, "damaged version 1 images refused by 15") \
    ITEM(OLDER_QUEUE, "damaged version 1 images read with another number received") \
    ITEM(OLDER_SHORT, "version 1 images refused by 12 with the header there") \
    ITEM(OLDER_LENT, "version 1 images read from less than version 2 needs") \
    ITEM(NEWEST_SHORT, "version 2 images refused by 12 with what version 1 needs") \
    ITEM(AS_OLDER, "version 2 images that say version 1") \
    ITEM(AS_NEWEST, "version 1 images that say version 2") \
    ITEM(VERSION_0, "images that say version 0") \
    ITEM(VERSION_3, "images that say version 3")

#define KEEPING_NAME(name, words) KEEPING_##name,
enum keeping { KEEPING_ITEMS(KEEPING_NAME) KEEPING_COUNT };
#undef KEEPING_NAME

struct keepings {
    uint64_t reached[KEEPING_COUNT];
};

extern const char *const keeping_words[KEEPING_COUNT];

struct damage;

void keepings_saved(struct keepings *keepings, const struct bench *bench);
void keepings_damage(struct keepings *keepings, const struct damage *damage);

/* An event that was given to a bench read from a damaged image. */
void keepings_ahead(struct keepings *keepings, struct outcome outcome);

#endif
