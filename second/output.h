#ifndef OUTPUT_H
#define OUTPUT_H

#include <stdio.h>

/* A command's result, once all it printed has gone out; 1 if it has not. */
static inline int output_result(int result)
{
    return fflush(stdout) != 0 || ferror(stdout) != 0 ? 1 : result;
}

/* The same of a command that answers standard input; 1 also if not all of that
   could be read. */
static inline int answers_result(int result)
{
    return output_result(ferror(stdin) != 0 ? 1 : result);
}

#endif
