/* Document 02, ticket 1: "We want such a line read into a divisor (from the
   list, at a chosen clock) and an LCR byte, and written back from the two." */
#include "settings.h"

#include <stdio.h>
#include <string.h>

#include "numbers.h"

#define LCR_LENGTH 0x03U
#define LCR_STOP 0x04U
#define LCR_PARITY_PLACE 3U
#define LEAST_LENGTH 5U

/* "or 134.5", which no other rate is like: the list has it as 1345. */
#define ODD_RATE "134.5"
#define ODD_RATE_TENTHS 1345U
#define TENTHS 10U

/* "Parity is N, O, E, M or S (LCR bits 5-3: 000, 001, 011, 101, 111; ..)" */
static const struct parity {
    const char *letter;
    unsigned bits;
} parities[] = {{"N", 0}, {"O", 1}, {"E", 3}, {"M", 5}, {"S", 7}};

#define PARITIES (sizeof parities / sizeof parities[0])

/* "stop 1 or 2; five bits take 1 or 1.5": LCR bit 2 clear, and set (S64). */
#define STOP_SHORT "1"

static const char *stop_long(unsigned length)
{
    return length == LEAST_LENGTH ? "1.5" : "2";
}

/* What is left of a line. */
struct rest {
    const char *at;
    size_t left;
};

static void pass(struct rest *rest, size_t length)
{
    rest->at += length;
    rest->left -= length;
}

static bool pass_word(struct rest *rest, const char *word)
{
    size_t length = strlen(word);
    if (rest->left < length || memcmp(rest->at, word, length) != 0)
        return false;
    pass(rest, length);
    return true;
}

static bool pass_comma(struct rest *rest)
{
    return pass_word(rest, ",");
}

/* "The rate is decimal, 1 to 99999 without leading zeros, or 134.5." */
static bool read_rate(struct rest *rest, uint64_t *tenths)
{
    *tenths = ODD_RATE_TENTHS;
    if (pass_word(rest, ODD_RATE))
        return true;
    uint64_t baud = 0;
    bool leading_zero = rest->left > 0 && *rest->at == '0';
    while (rest->left > 0 && number_add(&baud, 10, *rest->at))
        pass(rest, 1);
    if (leading_zero || baud < 1 || baud > 99999)
        return false;
    *tenths = TENTHS * baud;
    return true;
}

static bool read_parity(struct rest *rest, unsigned *bits)
{
    for (size_t i = 0; i < PARITIES; i += 1)
        if (pass_word(rest, parities[i].letter)) {
            *bits = parities[i].bits;
            return true;
        }
    return false;
}

/* "bits 5 to 8" */
static bool read_length(struct rest *rest, unsigned *length)
{
    if (rest->left == 0 || *rest->at < '5' || *rest->at > '8')
        return false;
    *length = (unsigned)(*rest->at - '0');
    pass(rest, 1);
    return true;
}

static bool read_stop(struct rest *rest, unsigned length, unsigned *stop)
{
    bool is_long = pass_word(rest, stop_long(length));
    *stop = is_long ? LCR_STOP : 0;
    return is_long || pass_word(rest, STOP_SHORT);
}

/* "bits 7-6 are 0" */
static bool read_shape(struct rest *rest, unsigned *lcr)
{
    unsigned parity = 0;
    unsigned length = 0;
    unsigned stop = 0;
    if (!read_parity(rest, &parity) || !pass_comma(rest) || !read_length(rest, &length)
        || !pass_comma(rest) || !read_stop(rest, length, &stop))
        return false;
    *lcr = parity << LCR_PARITY_PLACE | stop | (length - LEAST_LENGTH);
    return true;
}

struct settings settings_read(const struct rates *rates, uint64_t clock,
                              const char *line, size_t length)
{
    struct rest rest = {line, length};
    uint64_t tenths = 0;
    unsigned lcr = 0;
    /* "11 for any other line .., then 10" */
    if (!read_rate(&rest, &tenths) || !pass_comma(&rest) || !read_shape(&rest, &lcr)
        || rest.left > 0)
        return (struct settings){.refusal = REFUSAL_NO_SETTINGS};
    struct outcome divisor = rates_divisor(rates, clock, tenths);
    if (divisor.refusal != REFUSAL_NONE)
        return (struct settings){.refusal = divisor.refusal};
    return (struct settings){REFUSAL_NONE, divisor.answer, lcr};
}

/* NULL where the LCR has no parity of the five, or more than its bits 5-0. */
static const char *parity_letter(uint64_t lcr)
{
    for (size_t i = 0; i < PARITIES; i += 1)
        if (parities[i].bits == lcr >> LCR_PARITY_PLACE)
            return parities[i].letter;
    return NULL;
}

bool settings_gives(uint64_t lcr)
{
    return parity_letter(lcr) != NULL;
}

/* Gives the line's length; a zero byte is put behind it. */
static unsigned form_line(char line[SETTINGS_MOST + 1], unsigned tenths, uint64_t lcr)
{
    unsigned length = LEAST_LENGTH + (unsigned)(lcr & LCR_LENGTH);
    const char *stop = (lcr & LCR_STOP) != 0 ? stop_long(length) : STOP_SHORT;
    char baud[SETTINGS_MOST + 1] = ODD_RATE;
    if (tenths != ODD_RATE_TENTHS)
        snprintf(baud, sizeof baud, "%u", tenths / TENTHS);
    return (unsigned)snprintf(line, SETTINGS_MOST + 1, "%s,%s,%u,%s",
                              baud, parity_letter(lcr), length, stop);
}

struct outcome settings_write(const struct rates *rates, const struct question *question,
                              char *lent)
{
    /* "11 for .. an LCR byte that no line gives, then 10 (also for a divisor
       not listed at the clock), then 12 for a lent buffer too short" */
    if (!settings_gives(question->lcr))
        return refused(REFUSAL_NO_SETTINGS);
    struct outcome tenths = rates_tenths(rates, question->clock, question->divisor);
    if (tenths.refusal != REFUSAL_NONE)
        return tenths;
    char line[SETTINGS_MOST + 1];
    unsigned length = form_line(line, tenths.answer, question->lcr);
    if (question->room < length)
        return refused(REFUSAL_NO_ROOM);
    /* "bytes not written stay" */
    memcpy(lent, line, length);
    return accepted(length);
}
