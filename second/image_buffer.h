#ifndef IMAGE_BUFFER_H
#define IMAGE_BUFFER_H

#include <stdint.h>

/* The buffers of the trials of saved benches. */
#define BUFFER_BYTES 760U

struct buffer {
    uint8_t bytes[BUFFER_BYTES];
};

/* An image of a stop, at its place in a buffer. */
struct kept {
    struct buffer buffer;
    unsigned place;
};

/* TRIALS.md: "A fresh buffer has 760 bytes, each 165." */
struct buffer buffer_fresh(void);

/* TRIALS.md: "add the buffer" */
uint64_t digest_buffer(uint64_t digest, const struct buffer *buffer);

/* TRIALS.md, A stop, step 5: the version 1 image is made from the version 2 one. */
struct kept kept_as_older(const struct kept *newest);

/* A version 1 image as version 2 has it (S187). */
struct kept kept_as_newest(const struct kept *older);

#endif
