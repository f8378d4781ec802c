#include "sheets.h"

#include <inttypes.h>
#include <stdio.h>

#include "asked.h"
#include "lines.h"
#include "output.h"
#include "settings.h"

/* One character more than any settings line has: a longer line is any other
   line by that many already. */
#define KEPT (SETTINGS_MOST + 1U)

static size_t keep_line(char kept[KEPT])
{
    size_t length = 0;
    for (int character = line_next(); character != LINE_END; character = line_next())
        if (length < KEPT) {
            kept[length] = (char)character;
            length += 1;
        }
    return length;
}

static void print_settings(struct settings settings)
{
    if (settings.refusal == REFUSAL_NONE)
        printf("0 %u %02X\n", settings.divisor, settings.lcr);
    else
        printf("%u - -\n", (unsigned)settings.refusal);
}

int sheets_read(uint64_t clock)
{
    struct rates rates = rates_listed();
    while (line_follows()) {
        char kept[KEPT];
        size_t length = keep_line(kept);
        print_settings(settings_read(&rates, clock, kept, length));
    }
    return answers_result(0);
}

static bool read_question(struct question *question)
{
    struct asked asked = {0};
    for (int character = line_next(); character != LINE_END; character = line_next())
        asked_take(&asked, character);
    return asked_question(&asked, question);
}

static void print_written(const struct rates *rates, const struct question *question)
{
    char lent[SETTINGS_MOST];
    struct outcome outcome = settings_write(rates, question, lent);
    if (outcome.refusal == REFUSAL_NONE)
        printf("0 %.*s\n", (int)outcome.answer, lent);
    else
        printf("%u -\n", (unsigned)outcome.refusal);
}

int sheets_write(void)
{
    struct rates rates = rates_listed();
    int result = 0;
    for (uint64_t number = 1; line_follows(); number += 1) {
        struct question question;
        if (read_question(&question)) {
            print_written(&rates, &question);
        } else {
            fprintf(stderr, "line %" PRIu64 " is not four numbers\n", number);
            result = 1;
        }
    }
    return answers_result(result);
}
