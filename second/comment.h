#ifndef COMMENT_H
#define COMMENT_H

#include <stddef.h>

#include "page.h"

/* A record's comment as the lesson has it, from its `#` on; it has no bytes
   where there is none. */
struct comment {
    const char *bytes;
    size_t length;
};

/* docs/TELLING.md, The comment: "on a new line behind 12 blanks". */
void comment_tell(struct page *page, struct comment comment);

#endif
