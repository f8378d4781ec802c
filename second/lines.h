#ifndef LINES_H
#define LINES_H

#include <stdbool.h>
#include <stdio.h>

/* Lines of standard input, a character at a time, so that a line of any length
   needs no room. A line ends at a line feed and nowhere else (S57). */

#define LINE_END EOF

/* Whether there is a further line, once all of the last one is taken. What
   stands behind the last line feed is a line if it has a character. */
bool line_follows(void);

/* The line's next character, or LINE_END. */
int line_next(void);

#endif
