#include "sheet_numbers.h"

#include <stdio.h>
#include <string.h>

#include "output.h"
#include "settings.h"

/* 2 to the 64, and 12 more: in 64 bits they would be 0, a clock and no room,
   and 12, a divisor. */
#define LONG_CLOCK "18446744073709551616"
#define LONG_DIVISOR "18446744073709551628"
#define LONG_ROOM "18446744073709551616"

#define LARGEST_ROOM (SETTINGS_MOST + 1U)

/* The longest of the four numbers has 20 digits. */
#define DIGITS_BYTES 24U
#define LINE_BYTES (4U * DIGITS_BYTES)

static const char *const single_lines[] = {
    "0 12 1E 10", /* the ticket's example, in exactly its room */
    "0 12 1E 9", /* one short */
    "0 12 1e 10", /* a small letter */
    "0 857 3c 13", /* the longest line, and a small letter */
    "0 857 3C 12", /* one short of it */
    "0 1536 00 9", /* the shortest line, 75,N,5,1, and one over */
    "0 1536 00 8", /* exactly it */
    "0 1536 00 7", /* one short */
    "000 0012 001E 0010", /* leading zeros */
    "0000000000000000000000 0000000000000000000012 1E 10", /* more than a type has digits */
    "0 12 0000000000000000001E 0000000000000000000010", /* the same of the others */
    "0 12 0 13", /* one digit of LCR */
    "0 12 100 13", /* LCR 00 in 8 bits */
    "0 12 11E 13", /* LCR 1E in 8 bits */
    "0 12 0011E 13", /* the same behind zeros */
    "0 12 1001E 13", /* LCR 1E in 16 bits */
    "0 12 1001e 13", /* the same in small letters */
    "0 12 10000001E 13", /* LCR 1E in 32 bits */
    "0 12 1000000000000001E 13", /* LCR 1E in 64 bits */
    "0 12 FFFFFFFFFFFFFFFF 13", /* all of 64 bits */
    "256 12 1E 13", /* clock 0 in 8 bits */
    "65536 12 1E 13", /* in 16 */
    "4294967296 12 1E 13", /* in 32 */
    "18446744073709551615 12 1E 13", /* all of 64 bits */
    "0 268 1E 13", /* divisor 12 in 8 bits */
    "0 65548 1E 13", /* in 16 */
    "0 4294967308 1E 13", /* in 32 */
    "0 18446744073709551615 1E 13", /* all of 64 bits */
    "0 12 1E 256", /* no room in 8 bits */
    "0 12 1E 65536", /* in 16 */
    "0 12 1E 4294967296", /* in 32 */
    "0 12 1E 18446744073709551615", /* all of 64 bits */
    "0 12 1E 0", /* 12 alone */
    "0 12 FF 0", /* 11 before 12 */
    "0 13 1E 0", /* 10 before 12 */
    "0 13 FF 13", /* 11 before 10 */
    "0 13 FF 0", /* 11 before both */
    "3 12 1E 0", /* 10 for the clock, before 12 */
    "3 13 FF 0", /* 11 before all of it */
};

struct digits {
    char text[DIGITS_BYTES];
};

static struct digits digits_of(unsigned value)
{
    struct digits digits;
    snprintf(digits.text, sizeof digits.text, "%u", value);
    return digits;
}

static void take_numbers(const char *clock, const char *divisor, unsigned lcr, const char *room,
                         struct taker taker)
{
    char line[LINE_BYTES];
    int length = snprintf(line, sizeof line, "%s %s %02X %s", clock, divisor, lcr, room);
    taker.take(taker.with, line, (size_t)length);
}

static void take_every_lcr(const char *clock, const char *divisor, struct taker taker)
{
    struct digits room = digits_of(SETTINGS_MOST);
    for (unsigned lcr = 0; lcr <= 0xFF; lcr += 1)
        take_numbers(clock, divisor, lcr, room.text, taker);
}

/* Every divisor of the three lists with its two neighbours, and the ends of
   what two bytes hold: 0, 65535 and 65536. */
static void mark_divisors(const struct rates *rates, bool marked[LARGEST_DIVISOR + 2])
{
    marked[0] = true;
    marked[LARGEST_DIVISOR] = true;
    marked[LARGEST_DIVISOR + 1] = true;
    for (unsigned clock = 0; clock < CLOCKS; clock += 1)
        for (unsigned i = 0; i < rates_count(clock); i += 1) {
            unsigned divisor = rates->divisors[clock][i];
            for (unsigned near = divisor - 1; near <= divisor + 1; near += 1)
                marked[near] = true;
        }
}

static void take_every_divisor(const struct rates *rates, const char *clock, struct taker taker)
{
    bool marked[LARGEST_DIVISOR + 2] = {false};
    mark_divisors(rates, marked);
    for (unsigned divisor = 0; divisor <= LARGEST_DIVISOR + 1; divisor += 1)
        if (marked[divisor])
            take_every_lcr(clock, digits_of(divisor).text, taker);
    take_every_lcr(clock, LONG_DIVISOR, taker);
}

static void take_every_room(const char *clock, const char *divisor, struct taker taker)
{
    for (unsigned lcr = 0; lcr <= 0xFF; lcr += 1) {
        if (!settings_gives(lcr))
            continue;
        for (unsigned room = 0; room <= LARGEST_ROOM; room += 1)
            take_numbers(clock, divisor, lcr, digits_of(room).text, taker);
        take_numbers(clock, divisor, lcr, LONG_ROOM, taker);
    }
}

void sheet_numbers(const struct rates *rates, struct taker taker)
{
    for (size_t i = 0; i < sizeof single_lines / sizeof single_lines[0]; i += 1)
        taker.take(taker.with, single_lines[i], strlen(single_lines[i]));
    /* One clock more than there are. */
    for (unsigned clock = 0; clock <= CLOCKS; clock += 1)
        take_every_divisor(rates, digits_of(clock).text, taker);
    take_every_divisor(rates, LONG_CLOCK, taker);
    for (unsigned clock = 0; clock < CLOCKS; clock += 1)
        for (unsigned i = 0; i < rates_count(clock); i += 1) {
            struct digits divisor = digits_of(rates->divisors[clock][i]);
            take_every_room(digits_of(clock).text, divisor.text, taker);
        }
}

int sheet_numbers_run(void)
{
    struct rates rates = rates_listed();
    sheet_numbers(&rates, taker_printing());
    return output_result(0);
}
