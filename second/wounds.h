#ifndef WOUNDS_H
#define WOUNDS_H

#include <stdint.h>

#include "image_layout.h"
#include "stream.h"

/* TRIALS.md, spot: a position in an image. */
unsigned pick_spot(struct stream *picker);

/* TRIALS.md, A wound, in an image whose records have so many bytes: one byte is
   replaced, or an amount goes from one tally to another. Gives the position of the
   one byte; IMAGE_BYTES of a transfer. IMAGE_BYTES are there to be wounded. */
unsigned wound(struct stream *picker, uint8_t image[IMAGE_BYTES], unsigned seat_bytes);

#endif
