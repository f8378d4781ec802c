#ifndef LESSON_H
#define LESSON_H

#include <stdbool.h>
#include <stddef.h>
#include <stdint.h>

#include "comment.h"
#include "records.h"

/* "A lesson has at most 16777215 characters and 262144 records." */
#define LESSON_MOST 16777215U
#define LESSON_RECORDS_MOST 262144U

/* A lesson's text, and how far it has been taken. There is one at a time. */
struct lesson {
    const char *text;
    size_t length;
    size_t at;
};

/* A record of four bytes, or of fewer where the text ends within it. */
struct lesson_record {
    uint8_t bytes[RECORD_BYTES];
    size_t length;
    struct comment comment;
};

/* Not 0, and told on standard error, where the file cannot be read or its text
   has a fault (S255). */
int lesson_read(struct lesson *lesson, const char *name);

/* From the first record again. */
void lesson_rewind(struct lesson *lesson);

/* A record of no bytes where the text has no more. */
struct lesson_record lesson_next(struct lesson *lesson);

#endif
