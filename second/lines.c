#include "lines.h"

bool line_follows(void)
{
    int character = getchar();
    return character != EOF && ungetc(character, stdin) != EOF;
}

int line_next(void)
{
    int character = getchar();
    return character == '\n' ? LINE_END : character;
}
