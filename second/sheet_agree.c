#include "sheet_agree.h"

#include <stdbool.h>
#include <stdint.h>
#include <stdio.h>
#include <string.h>

#include "asked.h"
#include "output.h"
#include "settings.h"
#include "sheet_lines.h"
#include "sheet_numbers.h"

/* More than any line needs, so that a byte written behind one is seen. */
#define LENT (SETTINGS_MOST + 3U)
/* No line has this character. */
#define UNTOUCHED '#'

struct agreement {
    const struct rates *rates;
    unsigned clock; /* of the lines that are read */
    uint64_t agreed;
    uint64_t disagreed;
};

static void count(struct agreement *agreement, bool agrees, const char *line, size_t length)
{
    if (agrees) {
        agreement->agreed += 1;
        return;
    }
    agreement->disagreed += 1;
    fprintf(stderr, "settings-agree: not the same there and back: ");
    fwrite(line, 1, length, stderr);
    fputc('\n', stderr);
}

/* "bytes not written stay" */
static bool rest_stays(const char lent[LENT], size_t written)
{
    for (size_t i = written; i < LENT; i += 1)
        if (lent[i] != UNTOUCHED)
            return false;
    return true;
}

static bool reads_back(const struct rates *rates, const struct question *question,
                       const char *line, size_t length)
{
    struct settings settings = settings_read(rates, question->clock, line, length);
    return settings.refusal == REFUSAL_NONE && settings.divisor == question->divisor
        && settings.lcr == question->lcr;
}

/* A line of four numbers: written and, if it is not refused, read again. */
static void try_numbers(void *with, const char *line, size_t length)
{
    struct agreement *agreement = with;
    struct asked asked = {0};
    struct question question;
    char lent[LENT];
    for (size_t i = 0; i < length; i += 1)
        asked_take(&asked, line[i]);
    bool well_formed = asked_question(&asked, &question);
    memset(lent, UNTOUCHED, LENT);
    struct outcome outcome = settings_write(agreement->rates, &question, lent);
    bool written = outcome.refusal == REFUSAL_NONE;
    size_t bytes = written ? outcome.answer : 0;
    bool agrees = well_formed && bytes <= question.room && rest_stays(lent, bytes)
        && (!written || reads_back(agreement->rates, &question, lent, bytes));
    if (written || !agrees)
        count(agreement, agrees, line, length);
}

/* A settings line: read and, if it is not refused, written again. */
static void try_line(void *with, const char *line, size_t length)
{
    struct agreement *agreement = with;
    struct settings settings = settings_read(agreement->rates, agreement->clock, line, length);
    if (settings.refusal != REFUSAL_NONE)
        return;
    char lent[LENT];
    struct question question = {agreement->clock, settings.divisor, settings.lcr, length};
    struct outcome outcome = settings_write(agreement->rates, &question, lent);
    bool agrees = outcome.refusal == REFUSAL_NONE && outcome.answer == length
        && memcmp(lent, line, length) == 0;
    count(agreement, agrees, line, length);
}

/* Where nothing was accepted nothing was compared. */
static bool all_agreed(const struct agreement *agreement, const char *what)
{
    if (agreement->agreed == 0)
        fprintf(stderr, "settings-agree: none of the %s was accepted\n", what);
    return agreement->agreed > 0 && agreement->disagreed == 0;
}

int sheet_agree_run(void)
{
    struct rates rates = rates_listed();
    struct agreement numbers = {.rates = &rates};
    sheet_numbers(&rates, (struct taker){try_numbers, &numbers});
    bool agreed = all_agreed(&numbers, "numbers");
    for (unsigned clock = 0; clock < CLOCKS; clock += 1) {
        struct agreement lines = {.rates = &rates, .clock = clock};
        sheet_lines(&rates, clock, (struct taker){try_line, &lines});
        agreed = all_agreed(&lines, "lines") && agreed;
    }
    return output_result(agreed ? 0 : 1);
}
