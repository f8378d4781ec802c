#ifndef IMAGE_FIELDS_H
#define IMAGE_FIELDS_H

#include <stdint.h>

#include "bench.h"
#include "image_layout.h"

/* The bench as the bytes of an image of a known version say it, sound or not. A
   queue's number that passes its places is cut to them; what is then wrong the
   grounds tell. */
struct bench image_fields(const uint8_t *image);

#endif
