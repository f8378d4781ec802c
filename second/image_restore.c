#include <string.h>

#include "image.h"
#include "image_fields.h"
#include "image_grounds.h"
#include "image_shape.h"

/* "Refusals, in order: 12 no room or below 5 bytes, 13 wrong mark, 14 unknown
   version, 12 shorter than its version, 15 .." */
static enum refusal refusal_of(const uint8_t *image, size_t bytes)
{
    if (bytes < IMAGE_HEADER_BYTES)
        return REFUSAL_NO_ROOM;
    if (memcmp(image, IMAGE_MARK, IMAGE_MARK_BYTES) != 0)
        return REFUSAL_NO_MARK;
    const struct image_shape *shape = image_shape(image);
    if (shape == NULL)
        return REFUSAL_NO_VERSION;
    if (bytes < shape->bytes)
        return REFUSAL_NO_ROOM;
    return image_grounds(image) == 0 ? REFUSAL_NONE : REFUSAL_NO_BENCH;
}

enum refusal image_restore(struct bench *bench, const uint8_t *lent, size_t length, uint64_t place)
{
    /* A place past the end has no bytes (S75). */
    size_t bytes = place > length ? 0 : length - place;
    const uint8_t *image = lent + (length - bytes);
    enum refusal refusal = refusal_of(image, bytes);
    if (refusal == REFUSAL_NONE)
        *bench = image_fields(image);
    return refusal;
}
