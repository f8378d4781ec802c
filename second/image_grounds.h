#ifndef IMAGE_GROUNDS_H
#define IMAGE_GROUNDS_H

#include <stdint.h>

#include "image_layout.h"

/* Each ground of refusal 15, with the words it is printed by. */
#define GROUND_ITEMS(ITEM) \
    ITEM(STEP, "step above 3") ITEM(LEVEL, "level mode above 1") \
    ITEM(BASE, "base with one of its low three bits") ITEM(FIRST, "first-ranked line above 7") \
    ITEM(SPECIAL, "special mask above 1") ITEM(AUTOMATIC, "automatic end above 1") \
    ITEM(ROTATION, "its rotation above 1") ITEM(SELECTION, "selection for port 0 above 1") \
    ITEM(LATCH_EDGE, "latch on a low line in edge mode") \
    ITEM(LATCH_LEVEL, "latch on a low line in level mode") \
    ITEM(IER, "IER above 0F") ITEM(FCR, "FCR of no mode") ITEM(MCR, "MCR above 1F") \
    ITEM(CHANGES, "MSR bits 0-3 above 0F") ITEM(LEVELS, "modem levels above 0F") \
    ITEM(OVERRUN, "overrun above 1") ITEM(KEPT, "kept marks above 7") \
    ITEM(FLAG, "holding-empty flag above 1") ITEM(TIMEOUT, "time-out count above 4") \
    ITEM(TIMEOUT_16450, "time-out count in 16450 mode") \
    ITEM(TIMEOUT_EMPTY, "time-out count with nothing queued") \
    ITEM(SHIFT_FULL, "shift register in use above 1") \
    ITEM(SHIFT_UNUSED, "byte in an empty shift register") \
    ITEM(SEND_16450, "two or more to send in 16450 mode") \
    ITEM(SEND_FIFO, "seventeen or more to send in FIFO mode") \
    ITEM(SEND_UNUSED, "byte behind the last to send") \
    ITEM(RECEIVE_16450, "two or more received in 16450 mode") \
    ITEM(RECEIVE_FIFO, "seventeen or more received in FIFO mode") \
    ITEM(RECEIVE_UNUSED, "byte behind the last received") \
    ITEM(MARKS, "marks of a received character above 7") \
    ITEM(MARKS_UNUSED, "marks behind the last received") \
    ITEM(SUM, "tallies that do not add up") ITEM(MISCOUNT, "tallies that miscount the queue")

#define GROUND_NAME(name, words) GROUND_##name,
enum ground { GROUND_ITEMS(GROUND_NAME) GROUNDS };
#undef GROUND_NAME

/* The grounds that an image of a known version gives, ground n as bit n. */
uint64_t image_grounds(const uint8_t *image);

/* Of a seat's five tallies in an image. */
uint64_t image_sum_of_four(const uint8_t *figures);

#endif
