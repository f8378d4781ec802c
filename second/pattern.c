#include "pattern.h"

#include <string.h>

/* What is left of a text behind a part of it; NULL where it does not begin so. */

static const char *behind_number(const char *text)
{
    size_t length = strspn(text, "0123456789");
    if (length == 0 || (length > 1 && text[0] == '0'))
        return NULL;
    return text + length;
}

static const char *behind_byte(const char *text, unsigned *byte)
{
    static const char digits[] = "0123456789ABCDEF";
    const char *high = text[0] != '\0' ? strchr(digits, text[0]) : NULL;
    const char *low = high != NULL && text[1] != '\0' ? strchr(digits, text[1]) : NULL;
    if (low == NULL)
        return NULL;
    *byte = (unsigned)(16 * (high - digits) + (low - digits));
    return text + 2;
}

/* A letter whose byte is among these; its character follows exactly where it is
   21 to 7E. */
static const char *behind_letter(const char *text, unsigned least, unsigned most)
{
    char character[] = " ' '";
    unsigned byte = 0;
    const char *left = behind_byte(text, &byte);
    if (left == NULL || byte < least || byte > most)
        return NULL;
    if (byte < 0x21 || byte > 0x7E)
        return left;
    character[2] = (char)byte;
    return strncmp(left, character, 4) == 0 ? left + 4 : NULL;
}

static const char *behind_words(const char *text, const char *words)
{
    size_t length = strlen(words);
    return strncmp(text, words, length) == 0 ? text + length : NULL;
}

static const char *behind_marks(const char *text)
{
    static const char *const words[] = {" parity", " framing", " break"};
    unsigned byte = 0;
    const char *left = behind_words(text, " with marks ");
    if (left != NULL)
        return behind_byte(left, &byte);
    left = behind_words(text, " with");
    if (left == NULL)
        return text;
    for (size_t i = 0; i < sizeof words / sizeof words[0]; i += 1) {
        const char *further = behind_words(left, words[i]);
        left = further != NULL ? further : left;
    }
    return left;
}

static const char *behind_sign(char sign, const char *text)
{
    unsigned byte = 0;
    switch (sign) {
    case 'n': return behind_number(text);
    case 'b': return behind_byte(text, &byte);
    case 'c': return behind_letter(text, 0x21, 0x7E);
    case 'd': return behind_letter(text, 0x00, 0x20);
    case 'h': return behind_letter(text, 0x7F, 0xFF);
    case 'l': return behind_letter(text, 0x00, 0xFF);
    case 'm': return behind_marks(text);
    default: return NULL;
    }
}

/* The place of a star, from which on any number of characters is passed over. */
static bool fits_behind_star(const char *pattern, const char *text)
{
    for (; *text != '\0'; text += 1)
        if (pattern_fits(pattern, text))
            return true;
    return pattern_fits(pattern, text);
}

bool pattern_fits(const char *pattern, const char *text)
{
    while (*pattern != '\0' && *pattern != '*') {
        bool is_sign = *pattern == '%';
        const char *left = *text == *pattern ? text + 1 : NULL;
        if (is_sign)
            left = behind_sign(pattern[1], text);
        if (left == NULL)
            return false;
        pattern += is_sign ? 2 : 1;
        text = left;
    }
    return *pattern == '*' ? fits_behind_star(pattern + 1, text) : *text == '\0';
}
