#include "sheet_lines.h"

#include <string.h>

#include "output.h"
#include "settings.h"
#include "sheet_faults.h"

/* All that a settings line is made of, and what comes close: a small letter, a
   blank, a carriage return, and the byte that is no character to many readers. */
static const char *const alphabet[] = {
    "0", "1", "2", "3", "4", "5", "6", "7", "8", "9", ".", ",",
    "N", "O", "E", "M", "S", "e", " ", "\r", "\xFF",
};

#define LETTERS (sizeof alphabet / sizeof alphabet[0])

struct line {
    char text[SETTINGS_MOST];
    size_t length;
};

/* The line with a letter, or nothing, in the place of its characters from
   `first` to before `behind`. */
static void take_spliced(const struct line *line, size_t first, const char *put, size_t behind,
                         struct taker taker)
{
    char spliced[SETTINGS_MOST + 1];
    size_t count = strlen(put);
    memcpy(spliced, line->text, first);
    memcpy(spliced + first, put, count);
    memcpy(spliced + first + count, line->text + behind, line->length - behind);
    taker.take(taker.with, spliced, first + count + line->length - behind);
}

static void take_changed_at(const struct line *line, size_t place, struct taker taker)
{
    for (size_t i = 0; i < LETTERS; i += 1)
        if (*alphabet[i] != line->text[place])
            take_spliced(line, place, alphabet[i], place + 1, taker);
    take_spliced(line, place, "", place + 1, taker);
}

static void take_added_at(const struct line *line, size_t place, struct taker taker)
{
    for (size_t i = 0; i < LETTERS; i += 1)
        take_spliced(line, place, alphabet[i], place, taker);
}

static void take_with_neighbours(const struct line *line, struct taker taker)
{
    taker.take(taker.with, line->text, line->length);
    for (size_t place = 0; place < line->length; place += 1)
        take_changed_at(line, place, taker);
    for (size_t place = 0; place <= line->length; place += 1)
        take_added_at(line, place, taker);
}

void sheet_lines(const struct rates *rates, unsigned clock, struct taker taker)
{
    sheet_faults(taker);
    for (unsigned i = 0; i < rates_count(clock); i += 1)
        for (unsigned lcr = 0; lcr <= 0xFF; lcr += 1) {
            struct question question = {clock, rates->divisors[clock][i], lcr, SETTINGS_MOST};
            struct line line;
            struct outcome outcome = settings_write(rates, &question, line.text);
            line.length = outcome.answer;
            if (outcome.refusal == REFUSAL_NONE)
                take_with_neighbours(&line, taker);
        }
}

int sheet_lines_run(unsigned clock)
{
    struct rates rates = rates_listed();
    sheet_lines(&rates, clock, taker_printing());
    return output_result(0);
}
