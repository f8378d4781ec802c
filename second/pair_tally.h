#ifndef PAIR_TALLY_H
#define PAIR_TALLY_H

#include <stdbool.h>
#include <stdint.h>

#include "image_layout.h"
#include "watch.h"

/* A pair is two lessons. */
enum side { SIDE_LEFT, SIDE_RIGHT, SIDES };

/* What the pairs are to reach, each with the words it is printed by. Its own is
   said of the one seat, and counted on both sides; inside is with MCR bit 4 set. */
#define PAIR_ITEMS(ITEM) \
    ITEM(SEAT_0, "own events, seat 0") ITEM(SEAT_1, "own events, seat 1") \
    ITEM(SEAT_2, "own events, seat 2") ITEM(SEAT_3, "own events, seat 3") \
    ITEM(SEAT_4, "own events, seat 4") ITEM(SEAT_5, "own events, seat 5") \
    ITEM(SEAT_6, "own events, seat 6") ITEM(SEAT_7, "own events, seat 7") \
    ITEM(KIND_0, "own kind 0 accepted") ITEM(KIND_1, "own kind 1 accepted") \
    ITEM(KIND_2, "own kind 2 accepted") ITEM(KIND_3, "own kind 3 accepted") \
    ITEM(KIND_4, "own kind 4 accepted") ITEM(KIND_5, "master resets") \
    ITEM(REFUSED_2_READ, "own reads refused by 2") \
    ITEM(REFUSED_2_WRITE, "own writes refused by 2") \
    ITEM(REFUSED_5_ARRIVAL, "own arrivals refused by 5") \
    ITEM(REFUSED_5_TIME, "own character times refused by 5") \
    ITEM(REFUSED_6, "own arrivals refused by 6") \
    ITEM(REFUSED_7, "own modem inputs refused by 7") \
    ITEM(REFUSED_16, "own arrivals refused by 16") \
    ITEM(REFUSED_17, "own arrivals refused by 17") \
    ITEM(REFUSED_18, "own arrivals refused by 18") \
    ITEM(REFUSED_19_ARRIVAL, "own arrivals refused by 19") \
    ITEM(REFUSED_19_TIME, "own character times refused by 19") \
    ITEM(LETTER_16450, "own letters with marks in 16450 mode") \
    ITEM(LETTER_FIFO, "own letters with marks in FIFO mode") \
    ITEM(LETTER_BEHIND, "own letters with others behind them") \
    ITEM(LETTER_EMPTY, "own letters of an empty queue") \
    ITEM(SENT, "own characters sent") ITEM(BREAK, "own breaks sent") \
    ITEM(IDLE, "own character times with nothing to send") \
    ITEM(INSIDE, "own events inside") ITEM(INSIDE_RECEIVED, "own characters received inside") \
    ITEM(ARRIVAL_LOST, "own characters lost") ITEM(DROPPED, "own characters dropped by FCR") \
    ITEM(DROPPED_RESET, "own characters dropped by a master reset") \
    ITEM(LINE_HIGH, "own events with the line high behind them") \
    ITEM(LINE_LOW, "own events with the line low behind them") \
    ITEM(LINE_RISES, "own events that raise the line") \
    ITEM(LINE_FALLS, "own events that lower the line") \
    ITEM(MOST_BESIDE, "own characters received beside a neighbour at its largest value") \
    ITEM(MOST_ALONE, "own events refused by 19 with no neighbour at its largest value") \
    ITEM(FULL_BESIDE, "own characters queued beside a neighbour whose queue is full") \
    ITEM(INSIDE_BESIDE, "own characters sent beside a neighbour inside") \
    ITEM(NOT_READY, "own events accepted while the controller is not ready") \
    ITEM(BESIDE_KIND_0, "neighbours' kind 0 accepted") \
    ITEM(BESIDE_KIND_1, "neighbours' kind 1 accepted") \
    ITEM(BESIDE_KIND_2, "neighbours' kind 2 accepted") \
    ITEM(BESIDE_KIND_3, "neighbours' kind 3 accepted") \
    ITEM(BESIDE_KIND_4, "neighbours' kind 4 accepted") \
    ITEM(BESIDE_BEFORE, "events of the seat before it") \
    ITEM(BESIDE_BEHIND, "events of the seat behind it") \
    ITEM(BESIDE_19, "neighbours' events refused by 19") \
    ITEM(CUT_SEAT, "records refused by 1 with its number in the low three bits") \
    ITEM(UNUSED_SEAT, "records of kinds 6 to 8 with its number in the seat byte") \
    ITEM(BESIDE_3, "records refused by 3") ITEM(BESIDE_8, "records refused by 8") \
    ITEM(BESIDE_9, "records refused by 9") \
    ITEM(GRANT_LEFT, "its line granted on the left") \
    ITEM(GRANT_RIGHT, "its line granted on the right") \
    ITEM(GRANT_EDGE, "its line granted in edge mode") \
    ITEM(GRANT_LEVEL, "its line granted in level mode") \
    ITEM(GRANT_LAST, "its line granted and made last-ranked") \
    ITEM(ENDED, "its line ended") ITEM(LATCH_CLEARED, "its latch cleared by ICW1") \
    ITEM(OUTPUT_HIGH, "turns with its line high and the output high on one side alone") \
    ITEM(OUTPUT_LOW, "turns with its line low and the output high on one side alone") \
    ITEM(LATCH_ONE, "turns with its latch set on one side alone") \
    ITEM(SERVICE_ONE, "turns with its line in service on one side alone") \
    ITEM(MASKED_ONE, "turns with its line high and masked on one side alone") \
    ITEM(READY_ONE, "turns with the controller ready on one side alone") \
    ITEM(STOP_1, "restores of version 1 read on both sides") \
    ITEM(STOP_2, "restores of version 2 read on both sides") \
    ITEM(STOP_1_OTHER, "restores of version 1 refused by 13 on one side and 15 on the other") \
    ITEM(STOP_2_OTHER, "restores of version 2 refused by 13 on one side and 15 on the other") \
    ITEM(STOP_1_OWN, "restores of version 1 refused by 15 for its own record") \
    ITEM(STOP_2_OWN, "restores of version 2 refused by 15 for its own record") \
    ITEM(STOP_KEPT, "restores refused with another record of it than the seat is") \
    ITEM(STOP_CHANGED, "restores by which the seat changed") \
    ITEM(STOP_TALLIES, "restores by which its tallies changed") \
    ITEM(STOP_RISES, "restores by which its line rises") \
    ITEM(STOP_FALLS, "restores by which its line falls") \
    ITEM(STOP_OLDER, "restores of version 1 that set its arrived to less than its record has") \
    ITEM(STOP_MOST, "restores by which its arrived is at its largest value") \
    ITEM(STOP_INSIDE, "restores by which it is inside") \
    ITEM(STOP_MARKED, "restores by which a mark is queued at it") \
    ITEM(STOP_SENDING, "restores by which it has characters to send") \
    ITEM(STOP_NEIGHBOURS, "stops with all seven other records unlike the other side's") \
    ITEM(STOP_CONTROLLERS, "stops with controllers unlike the other side's")

#define PAIR_NAME(name, words) PAIR_##name,
enum pair_item { PAIR_ITEMS(PAIR_NAME) PAIR_COUNT };
#undef PAIR_NAME

struct pair_tally {
    unsigned seat; /* the one of the pair at hand */
    uint64_t reached[PAIR_COUNT];
    uint64_t turns;
    uint64_t alike; /* turns behind which all of the seat is the same on both sides */
    uint64_t pairs;
    uint64_t agreeing; /* pairs whose two sights are the same */
};

/* A stop with the benches of both sides before and after the restore, and with the
   seat's record, as an image of version 2 has it, that was to be restored. */
struct pair_stop {
    struct bench before[SIDES];
    const struct bench *after;
    bool older; /* version 1 */
    uint8_t shelf[IMAGE_SEAT_BYTES];
    enum refusal refusals[SIDES];
};

void pair_tally_if(struct pair_tally *tally, bool reached, enum pair_item item);

/* Before the first turn of a pair. */
void pair_tally_begin(struct pair_tally *tally, unsigned seat);

void pair_tally_event(struct pair_tally *tally, enum side side, const struct moment *moment);
void pair_tally_turn(struct pair_tally *tally, const struct bench benches[SIDES]);
void pair_tally_stop(struct pair_tally *tally, const struct pair_stop *stop);

/* Behind the last turn of a pair. */
void pair_tally_end(struct pair_tally *tally, bool agreeing);

/* Prints it; not 0 if something is not reached, or the seat is ever another on one
   side than on the other. */
int pair_tally_print(const struct pair_tally *tally);

#endif
