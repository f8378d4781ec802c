#include "image.h"
#include "image_shape.h"

static void write_queue(const struct queue *queue, uint8_t *count, uint8_t *data)
{
    *count = (uint8_t)queue->count;
    /* The places from the number on are 0 in the queue itself. */
    for (unsigned i = 0; i < PLACES_FIFO; i += 1)
        data[i] = (uint8_t)queue->characters[i].data;
}

static void write_figures(const struct channel *seat, uint8_t *bytes)
{
    uint32_t figures[FIGURES];
    channel_figures(seat, figures);
    for (unsigned i = 0; i < FIGURES; i += 1)
        image_put_number(bytes + 4U * i, figures[i]);
}

/* "Each seat record goes into its own stretch of the buffer." */
static void write_seat(const struct channel *seat, uint8_t *record)
{
#define WRITE(at, member) record[at] = (uint8_t)seat->member;
    SEAT_FIELDS(WRITE)
#undef WRITE
    write_queue(&seat->transmit, &record[SEAT_AT_SEND_COUNT], &record[SEAT_AT_SEND]);
    write_queue(&seat->receive, &record[SEAT_AT_RECEIVE_COUNT], &record[SEAT_AT_RECEIVE]);
    for (unsigned i = 0; i < PLACES_FIFO; i += 1)
        record[SEAT_AT_MARKS + i] = (uint8_t)seat->receive.characters[i].marks;
    write_figures(seat, &record[SEAT_AT_FIGURES]);
}

static void write_controller(const struct controller *controller, uint8_t *block)
{
#define WRITE(at, member) block[at] = (uint8_t)controller->member;
    CONTROLLER_FIELDS(WRITE)
#undef WRITE
    block[CONTROLLER_AT_STEP] = (uint8_t)controller->stage;
    block[CONTROLLER_AT_FIRST] = (uint8_t)((controller->last_ranked + 1U) % LINES);
}

static void write_header(uint8_t *image)
{
    for (unsigned i = 0; i < IMAGE_MARK_BYTES; i += 1)
        image[i] = (uint8_t)IMAGE_MARK[i];
    image[IMAGE_AT_VERSION] = IMAGE_VERSION % 256U;
    image[IMAGE_AT_VERSION + 1] = IMAGE_VERSION / 256U;
}

enum refusal image_save(const struct bench *bench, uint8_t *lent, size_t length, uint64_t place)
{
    /* "12 no room" */
    if (place > length || length - place < IMAGE_BYTES)
        return REFUSAL_NO_ROOM;
    uint8_t *image = lent + place;
    write_header(image);
    write_controller(&bench->controller, image + IMAGE_AT_CONTROLLER);
    for (unsigned seat = 0; seat < SEATS; seat += 1)
        write_seat(&bench->seats[seat], image + IMAGE_AT_SEATS + seat * IMAGE_SEAT_BYTES);
    return REFUSAL_NONE;
}
