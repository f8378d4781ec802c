#include "taker.h"

#include <stdio.h>

static void print_line(void *with, const char *line, size_t length)
{
    (void)with;
    fwrite(line, 1, length, stdout);
    putchar('\n');
}

struct taker taker_printing(void)
{
    return (struct taker){print_line, NULL};
}
