/* Ticket 1: "We want such a line read into a divisor (from the list, at a chosen
   clock) and an LCR byte, and written back from the two." */
#include "setting_calls.h"

#include <stdio.h>
#include <string.h>

#include "compare.h"
#include "settings.h"
#include "sheet_lines.h"

#define LENT (HAILSTOAT_LINE_BYTES + 3U) /* more than any line needs */
#define UNTOUCHED '#' /* no line has it */

/* Clocks that are there and others, some of which are 0, 1 or 2 once they are cut. */
static const uint32_t clocks[] = {0, 1, 2, 3, 255, 256, 258, 65536, 0x80000001, UINT32_MAX};
#define CLOCKS_TRIED (sizeof clocks / sizeof clocks[0])

/* LCR bytes behind the 256: each is that of a line once it is cut. */
static const uint32_t wide_lcrs[] = {0x103, 0x11E, 0x10003, 0x80000003, UINT32_MAX - 0xE4};
#define WIDE_LCRS (sizeof wide_lcrs / sizeof wide_lcrs[0])

/* What is added to a listed divisor: itself, its neighbours, and what is the same once it is cut. */
static const uint32_t beside[] = {0, 1, UINT32_MAX, 0x100, 0x10000, 0x80000000};
#define BESIDE (sizeof beside / sizeof beside[0])

struct tried {
    struct rates rates;
    uint32_t clock;
    unsigned long count;
    unsigned long done;
    size_t longest;
};

static void read_line(struct tried *tried, uint32_t clock, const char *line, size_t length)
{
    uint8_t lcr = 0xA5; /* which the call must not leave */
    uint64_t word = hailstoat_read_setting((const uint8_t *)line, length, clock, &lcr);
    struct settings wanted = settings_read(&tried->rates, clock, line, length);
    int is_read = wanted.refusal == REFUSAL_NONE;
    if (!told(word, is_read ? accepted(wanted.divisor) : refused(wanted.refusal), 0))
        fail("a settings line is read otherwise");
    if (lcr != (is_read ? wanted.lcr : 0))
        fail("the LCR byte of a settings line differs");
    tried->count += 1;
    tried->done += (unsigned long)is_read;
}

static void take_line(void *with, const char *line, size_t length)
{
    struct tried *tried = with;
    read_line(tried, tried->clock, line, length);
}

/* Every line of a clock with all that are one character away from it, at that clock and at the others. */
static struct tried read_lines(const struct rates *rates)
{
    struct tried tried = {.rates = *rates};
    for (size_t i = 0; i < CLOCKS_TRIED; i += 1) {
        tried.clock = clocks[i];
        sheet_lines(rates, clocks[i] % CLOCKS, (struct taker){take_line, &tried});
    }
    return tried;
}

static void write_line(struct tried *tried, uint32_t divisor, uint32_t lcr, size_t room)
{
    uint8_t ours[LENT];
    char theirs[LENT];
    memset(ours, UNTOUCHED, LENT);
    memset(theirs, UNTOUCHED, LENT);
    struct question question = {tried->clock, divisor, lcr, room};
    uint64_t word = hailstoat_write_setting(divisor, lcr, tried->clock, ours, room);
    struct outcome wanted = settings_write(&tried->rates, &question, theirs);
    if (!told(word, wanted, 0))
        fail("a settings line is written otherwise");
    if (memcmp(ours, theirs, LENT) != 0)
        fail("a buffer that a settings line was written to differs");
    tried->count += 1;
    if (wanted.refusal != REFUSAL_NONE)
        return;
    tried->done += 1;
    if (tried->longest < wanted.answer)
        tried->longest = wanted.answer;
    read_line(tried, tried->clock, theirs, wanted.answer);
}

static void write_in_every_room(struct tried *tried, uint32_t divisor, uint32_t lcr)
{
    for (size_t room = 0; room <= LENT; room += 1)
        write_line(tried, divisor, lcr, room);
}

static void write_with_every_lcr(struct tried *tried, uint32_t divisor)
{
    for (uint32_t lcr = 0; lcr < 256; lcr += 1)
        write_in_every_room(tried, divisor, lcr);
    for (size_t i = 0; i < WIDE_LCRS; i += 1)
        write_in_every_room(tried, divisor, wide_lcrs[i]);
}

/* The divisors of all clocks at each, and those beside them. */
static struct tried write_lines(const struct rates *rates)
{
    struct tried tried = {.rates = *rates};
    for (size_t i = 0; i < CLOCKS_TRIED; i += 1)
        for (unsigned clock = 0; clock < CLOCKS; clock += 1)
            for (unsigned row = 0; row < rates_count(clock); row += 1)
                for (size_t by = 0; by < BESIDE; by += 1) {
                    tried.clock = clocks[i];
                    write_with_every_lcr(&tried, rates->divisors[clock][row] + beside[by]);
                }
    return tried;
}

void setting_lines(void)
{
    struct rates rates = rates_listed();
    struct tried lines = read_lines(&rates);
    struct tried numbers = write_lines(&rates);
    if (lines.done == 0 || lines.done == lines.count || numbers.done == 0)
        fail("of settings lines all were refused, or none");
    if (numbers.longest != HAILSTOAT_LINE_BYTES)
        fail("the longest settings line has not HAILSTOAT_LINE_BYTES bytes");
    printf("settings lines: %lu read, of which %lu accepted; %lu written or read back, as the second program's\n", lines.count,
           lines.done, numbers.count);
}
