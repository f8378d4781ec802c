#ifndef IMAGE_SHAPE_H
#define IMAGE_SHAPE_H

#include <stdint.h>

#include "image_layout.h"

/* What a version of the image says of its own size. The records of version 2
   only add bytes at the end of those of version 1. */
struct image_shape {
    unsigned version;
    unsigned seat_bytes;
    unsigned bytes;
};

/* By the version that the header names, of which five bytes are there; NULL where
   no such version is known. */
const struct image_shape *image_shape(const uint8_t *header);

/* A seat's record in an image of a known version. */
const uint8_t *image_record(const uint8_t *image, unsigned seat);

/* A number of four bytes, low byte first. */
uint32_t image_number(const uint8_t *bytes);
void image_put_number(uint8_t *bytes, uint32_t number);

#endif
