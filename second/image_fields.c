#include "image_fields.h"

#include <stddef.h>

#include "image_shape.h"

static struct queue read_queue(const uint8_t *count, const uint8_t *data, const uint8_t *marks)
{
    struct queue queue = {.count = *count > PLACES_FIFO ? PLACES_FIFO : *count};
    for (unsigned i = 0; i < queue.count; i += 1)
        queue.characters[i] = (struct character){data[i], marks == NULL ? 0 : marks[i]};
    return queue;
}

static struct ledger read_ledger(const uint8_t *figures)
{
    return (struct ledger){
        .arrived = image_number(figures + 4 * FIGURE_ARRIVED),
        .read = image_number(figures + 4 * FIGURE_READ),
        .lost = image_number(figures + 4 * FIGURE_LOST),
        .dropped = image_number(figures + 4 * FIGURE_DROPPED),
    };
}

static struct channel read_seat(const uint8_t *record, bool older)
{
    struct channel seat = {0};
#define READ(at, member) seat.member = record[at];
    SEAT_FIELDS(READ)
#undef READ
    seat.transmit = read_queue(&record[SEAT_AT_SEND_COUNT], &record[SEAT_AT_SEND], NULL);
    seat.receive = read_queue(&record[SEAT_AT_RECEIVE_COUNT], &record[SEAT_AT_RECEIVE],
                              &record[SEAT_AT_MARKS]);
    /* "version 1 reads with arrived equal to what is queued" */
    if (older)
        seat.ledger.arrived = seat.receive.count;
    else
        seat.ledger = read_ledger(&record[SEAT_AT_FIGURES]);
    return seat;
}

static struct controller read_controller(const uint8_t *block)
{
    struct controller controller = {0};
#define READ(at, member) controller.member = block[at];
    CONTROLLER_FIELDS(READ)
#undef READ
    controller.stage = (enum stage)block[CONTROLLER_AT_STEP];
    /* "Rank runs upward .. from the line after the last-ranked." */
    controller.last_ranked = (block[CONTROLLER_AT_FIRST] + LINES - 1U) % LINES;
    return controller;
}

struct bench image_fields(const uint8_t *image)
{
    bool older = image_shape(image)->version < IMAGE_VERSION;
    struct bench bench = {.controller = read_controller(image + IMAGE_AT_CONTROLLER)};
    for (unsigned seat = 0; seat < SEATS; seat += 1)
        bench.seats[seat] = read_seat(image_record(image, seat), older);
    /* S83: the lines are those of the seats read, and no line has risen. */
    bench.controller.lines = bench_lines(&bench);
    return bench;
}
