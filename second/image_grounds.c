/* "15 exactly for a field outside its range in document 01 (MCR to 0F,
   yes-or-no to 1), a queue beyond its capacity, a time-out count above 0 in
   16450 mode or with nothing queued, a latch set on a low line, or an unused
   byte not 0". Ticket 7: "A saved MCR may now be up to 1F." Ticket 8: "15 also for
   tallies that do not add up or miscount the queue". */
#include "image_grounds.h"

#include <stddef.h>

#include "image_fields.h"
#include "image_shape.h"

struct limit {
    unsigned at;
    unsigned most;
    enum ground ground;
};

static const struct limit controller_limits[] = {
    {CONTROLLER_AT_STEP, 3, GROUND_STEP},
    {CONTROLLER_AT_LEVEL, 1, GROUND_LEVEL},
    {CONTROLLER_AT_FIRST, 7, GROUND_FIRST},
    {CONTROLLER_AT_SPECIAL, 1, GROUND_SPECIAL},
    {CONTROLLER_AT_AUTOMATIC, 1, GROUND_AUTOMATIC},
    {CONTROLLER_AT_ROTATION, 1, GROUND_ROTATION},
    {CONTROLLER_AT_SELECTION, 1, GROUND_SELECTION},
};

static const struct limit seat_limits[] = {
    {SEAT_AT_IER, 0x0F, GROUND_IER},
    {SEAT_AT_MCR, 0x1F, GROUND_MCR},
    {SEAT_AT_CHANGES, 0x0F, GROUND_CHANGES},
    {SEAT_AT_LEVELS, 0x0F, GROUND_LEVELS},
    {SEAT_AT_OVERRUN, 1, GROUND_OVERRUN},
    {SEAT_AT_KEPT, 7, GROUND_KEPT},
    {SEAT_AT_FLAG, 1, GROUND_FLAG},
    {SEAT_AT_TIMEOUT, 4, GROUND_TIMEOUT},
    {SEAT_AT_SHIFT_FULL, 1, GROUND_SHIFT_FULL},
};

#define LIMITS(table) (sizeof(table) / sizeof(table)[0])

static uint64_t set_if(bool holds, enum ground ground)
{
    return holds ? UINT64_C(1) << ground : 0;
}

static uint64_t limit_grounds(const uint8_t *bytes, const struct limit *limits, size_t count)
{
    uint64_t grounds = 0;
    for (size_t i = 0; i < count; i += 1)
        grounds |= set_if(bytes[limits[i].at] > limits[i].most, limits[i].ground);
    return grounds;
}

static bool some_from(const uint8_t *places, unsigned from)
{
    for (unsigned i = from; i < PLACES_FIFO; i += 1)
        if (places[i] != 0)
            return true;
    return false;
}

static bool marks_above(const uint8_t *marks, unsigned count)
{
    for (unsigned i = 0; i < count && i < PLACES_FIFO; i += 1)
        if (marks[i] > 7)
            return true;
    return false;
}

/* S85: "Bit 0 clear: .. all FCR bits 0. Bit 0 set: .. bits 7-6 choose trigger ..,
   bit 3 is stored". */
static bool fcr_is_kept(unsigned fcr)
{
    return fcr == 0 || ((fcr & 0x01U) != 0 && (fcr & 0x36U) == 0);
}

static uint64_t queue_grounds(const uint8_t *record, bool fifo)
{
    unsigned send = record[SEAT_AT_SEND_COUNT];
    unsigned received = record[SEAT_AT_RECEIVE_COUNT];
    return set_if(!fifo && send > PLACES_16450, GROUND_SEND_16450)
           | set_if(fifo && send > PLACES_FIFO, GROUND_SEND_FIFO)
           | set_if(some_from(record + SEAT_AT_SEND, send), GROUND_SEND_UNUSED)
           | set_if(!fifo && received > PLACES_16450, GROUND_RECEIVE_16450)
           | set_if(fifo && received > PLACES_FIFO, GROUND_RECEIVE_FIFO)
           | set_if(some_from(record + SEAT_AT_RECEIVE, received), GROUND_RECEIVE_UNUSED)
           | set_if(marks_above(record + SEAT_AT_MARKS, received), GROUND_MARKS)
           | set_if(some_from(record + SEAT_AT_MARKS, received), GROUND_MARKS_UNUSED);
}

static uint64_t seat_grounds(const uint8_t *record)
{
    bool fifo = (record[SEAT_AT_FCR] & FCR_FIFO) != 0;
    bool waited = record[SEAT_AT_TIMEOUT] > 0;
    bool idle = record[SEAT_AT_SHIFT_FULL] == 0;
    return limit_grounds(record, seat_limits, LIMITS(seat_limits))
           | set_if(!fcr_is_kept(record[SEAT_AT_FCR]), GROUND_FCR)
           | set_if(waited && !fifo, GROUND_TIMEOUT_16450)
           | set_if(waited && record[SEAT_AT_RECEIVE_COUNT] == 0, GROUND_TIMEOUT_EMPTY)
           | set_if(idle && record[SEAT_AT_SHIFT] != 0, GROUND_SHIFT_UNUSED)
           | queue_grounds(record, fifo);
}

uint64_t image_sum_of_four(const uint8_t *figures)
{
    uint64_t sum = 0;
    for (unsigned i = FIGURE_READ; i < FIGURES; i += 1)
        sum += image_number(figures + 4U * i);
    return sum;
}

/* S183: the sum is not cut to 32 bits. */
static uint64_t figure_grounds(const uint8_t *record)
{
    const uint8_t *figures = record + SEAT_AT_FIGURES;
    uint32_t arrived = image_number(figures + 4 * FIGURE_ARRIVED);
    uint32_t queued = image_number(figures + 4 * FIGURE_QUEUED);
    return set_if(image_sum_of_four(figures) != arrived, GROUND_SUM)
           | set_if(queued != record[SEAT_AT_RECEIVE_COUNT], GROUND_MISCOUNT);
}

/* "a latch set on a low line", in level mode too (S90). */
static uint64_t latch_grounds(const uint8_t *image)
{
    const uint8_t *block = image + IMAGE_AT_CONTROLLER;
    struct bench bench = image_fields(image);
    bool on_low = (bench.controller.latches & ~bench.controller.lines) != 0;
    bool level = block[CONTROLLER_AT_LEVEL] != 0;
    return set_if(on_low && !level, GROUND_LATCH_EDGE)
           | set_if(on_low && level, GROUND_LATCH_LEVEL);
}

uint64_t image_grounds(const uint8_t *image)
{
    bool older = image_shape(image)->version < IMAGE_VERSION;
    const uint8_t *block = image + IMAGE_AT_CONTROLLER;
    uint64_t grounds = limit_grounds(block, controller_limits, LIMITS(controller_limits))
                       | set_if((block[CONTROLLER_AT_BASE] & 7U) != 0, GROUND_BASE)
                       | latch_grounds(image);
    for (unsigned seat = 0; seat < SEATS; seat += 1)
        grounds |= seat_grounds(image_record(image, seat));
    /* S182: what version 1 does not say is sound. */
    for (unsigned seat = 0; !older && seat < SEATS; seat += 1)
        grounds |= figure_grounds(image_record(image, seat));
    return grounds;
}
