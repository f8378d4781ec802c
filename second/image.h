#ifndef IMAGE_H
#define IMAGE_H

#include <stddef.h>
#include <stdint.h>

#include "bench.h"
#include "image_layout.h"

/* Saved benches. The place counts from the first byte lent and may be any
   number (S75). */

/* "Write the whole bench into a lent buffer at a place the caller names .. bytes
   outside the image stay." */
enum refusal image_save(const struct bench *bench, uint8_t *lent, size_t length, uint64_t place);

/* ".. and read it back". Where refused the bench is untouched. */
enum refusal image_restore(struct bench *bench, const uint8_t *lent, size_t length, uint64_t place);

#endif
