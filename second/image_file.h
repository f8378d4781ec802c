#ifndef IMAGE_FILE_H
#define IMAGE_FILE_H

#include "bench.h"

/* Images in files; what goes wrong is told on standard error. */

/* The file is written whole or not at all. Not 0 where it is not. */
int image_file_save(const struct bench *bench, const char *name);

/* An image from the file's first byte on. Not 0, and the bench as it was, where
   there is none; a refusal is told as `restore R`. */
int image_file_restore(struct bench *bench, const char *name);

#endif
