#ifndef RECORDS_H
#define RECORDS_H

#include <stddef.h>
#include <stdint.h>
#include <stdio.h>

#include "bench.h"

#define RECORD_BYTES 4U
#define BLOCK_BYTES 65536U

/* Records cut out of an input that comes in pieces of any size. */
struct records {
    FILE *input;
    size_t held;
    size_t used;
    uint8_t block[BLOCK_BYTES];
};

void records_begin(struct records *records, FILE *input);

/* Fills the record and gives the number of bytes it has: 4, or fewer at the
   end of input. */
size_t records_next(struct records *records, uint8_t record[RECORD_BYTES]);

/* "An event is a four-byte record: kind, seat, number, value." */
struct event record_event(const uint8_t record[RECORD_BYTES]);

#endif
