#include "image_shape.h"

#include <stddef.h>

static const struct image_shape shapes[] = {
    {1, IMAGE_OLDER_SEAT_BYTES, IMAGE_OLDER_BYTES},
    {IMAGE_VERSION, IMAGE_SEAT_BYTES, IMAGE_BYTES},
};

const struct image_shape *image_shape(const uint8_t *header)
{
    unsigned version = header[IMAGE_AT_VERSION] + 256U * header[IMAGE_AT_VERSION + 1];
    for (size_t i = 0; i < sizeof shapes / sizeof shapes[0]; i += 1)
        if (shapes[i].version == version)
            return &shapes[i];
    return NULL;
}

const uint8_t *image_record(const uint8_t *image, unsigned seat)
{
    return image + IMAGE_AT_SEATS + seat * image_shape(image)->seat_bytes;
}

uint32_t image_number(const uint8_t *bytes)
{
    uint32_t number = 0;
    for (unsigned i = 4; i > 0; i -= 1)
        number = number * 256U + bytes[i - 1];
    return number;
}

void image_put_number(uint8_t *bytes, uint32_t number)
{
    for (unsigned i = 0; i < 4; i += 1)
        bytes[i] = (uint8_t)(number >> 8 * i & 0xFFU);
}
