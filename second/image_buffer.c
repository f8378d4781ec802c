#include "image_buffer.h"

#include <string.h>

#include "bench.h"
#include "digest.h"
#include "image_shape.h"

#define BUFFER_FILL 165

struct buffer buffer_fresh(void)
{
    struct buffer buffer;
    memset(buffer.bytes, BUFFER_FILL, BUFFER_BYTES);
    return buffer;
}

/* Four bytes at a time, the first the least. */
uint64_t digest_buffer(uint64_t digest, const struct buffer *buffer)
{
    for (unsigned i = 0; i < BUFFER_BYTES; i += 4)
        digest = digest_add(digest, image_number(buffer->bytes + i));
    return digest;
}

struct kept kept_as_older(const struct kept *newest)
{
    struct kept older = {buffer_fresh(), newest->place};
    const uint8_t *from = newest->buffer.bytes + newest->place;
    uint8_t *to = older.buffer.bytes + older.place;
    memcpy(to, from, IMAGE_AT_SEATS);
    to[IMAGE_AT_VERSION] = 1;
    for (unsigned seat = 0; seat < SEATS; seat += 1)
        memcpy(to + IMAGE_AT_SEATS + seat * IMAGE_OLDER_SEAT_BYTES, image_record(from, seat),
               IMAGE_OLDER_SEAT_BYTES);
    return older;
}

struct kept kept_as_newest(const struct kept *older)
{
    struct kept newest = {buffer_fresh(), older->place};
    const uint8_t *from = older->buffer.bytes + older->place;
    uint8_t *to = newest.buffer.bytes + newest.place;
    memcpy(to, from, IMAGE_AT_SEATS);
    to[IMAGE_AT_VERSION] = IMAGE_VERSION;
    for (unsigned seat = 0; seat < SEATS; seat += 1) {
        const uint8_t *record = image_record(from, seat);
        uint8_t *wider = to + IMAGE_AT_SEATS + seat * IMAGE_SEAT_BYTES;
        memset(wider, 0, IMAGE_SEAT_BYTES);
        memcpy(wider, record, IMAGE_OLDER_SEAT_BYTES);
        wider[SEAT_AT_FIGURES + 4 * FIGURE_ARRIVED] = record[SEAT_AT_RECEIVE_COUNT];
        wider[SEAT_AT_FIGURES + 4 * FIGURE_QUEUED] = record[SEAT_AT_RECEIVE_COUNT];
    }
    return newest;
}
