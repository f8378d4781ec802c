#include "numbers.h"

#define NO_DIGIT 16U

static unsigned digit_value(int character)
{
    if (character >= '0' && character <= '9')
        return (unsigned)(character - '0');
    if (character >= 'A' && character <= 'F')
        return (unsigned)(character - 'A') + 10U;
    if (character >= 'a' && character <= 'f')
        return (unsigned)(character - 'a') + 10U;
    return NO_DIGIT;
}

bool number_add(uint64_t *number, unsigned base, int character)
{
    unsigned digit = digit_value(character);
    if (digit >= base)
        return false;
    bool beyond = *number > (NUMBER_MOST - digit) / base;
    *number = beyond ? NUMBER_MOST : *number * base + digit;
    return true;
}

bool number_parse(const char *word, uint64_t *number)
{
    const char *at = word;
    *number = 0;
    while (number_add(number, 10, *at))
        at += 1;
    return at > word && *at == '\0';
}
