/* Each case is a list of events with what document 01, as the tickets amend it,
   expects of them. */
#include "spoons.h"

#include <stdbool.h>
#include <stddef.h>
#include <stdio.h>

#include "ledger_spoons.h"
#include "letter_spoons.h"
#include "loopback_spoons.h"
#include "output.h"
#include "steps.h"
#include "tasting.h"

static const struct step case_1[] = {READ(0, 5, 0x60), READ(0, 2, 0x01), READ(0, 6, 0x00)};
static const struct step case_2[] = {
    SET_DIVISOR, ARRIVAL(0, 0, 0x41), ARRIVAL(0, 0, 0x42), READ(0, 5, 0x63), READ(0, 0, 0x42),
};
static const struct step case_3[] = {
    SET_FIFO,
    ARRIVAL(0, 0, 0), ARRIVAL(0, 0, 1), ARRIVAL(0, 0, 2), ARRIVAL(0, 0, 3), ARRIVAL(0, 0, 4),
    ARRIVAL(0, 0, 5), ARRIVAL(0, 0, 6), ARRIVAL(0, 0, 7), ARRIVAL(0, 0, 8), ARRIVAL(0, 0, 9),
    ARRIVAL(0, 0, 10), ARRIVAL(0, 0, 11), ARRIVAL(0, 0, 12), ARRIVAL(0, 0, 13),
    ARRIVAL(0, 0, 14), ARRIVAL(0, 0, 15), ARRIVAL(0, 0, 16),
    READ(0, 5, 0x63),
    READ(0, 0, 0), READ(0, 0, 1), READ(0, 0, 2), READ(0, 0, 3), READ(0, 0, 4), READ(0, 0, 5),
    READ(0, 0, 6), READ(0, 0, 7), READ(0, 0, 8), READ(0, 0, 9), READ(0, 0, 10), READ(0, 0, 11),
    READ(0, 0, 12), READ(0, 0, 13), READ(0, 0, 14), READ(0, 0, 15), READ(0, 5, 0x60),
};
static const struct step case_4[] = {
    SET_FIFO, WRITE(0, 1, 0x01), ARRIVALS(0, 0x55, 7), READ(0, 2, 0xC1),
    ARRIVAL(0, 0, 0x56), READ(0, 2, 0xC4),
};
static const struct step case_5[] = {
    SET_FIFO, WRITE(0, 1, 0x01), ARRIVALS(0, 0x55, 7), PASS(0, 4),
    READ(0, 2, 0xCC), READ(0, 0, 0x55), READ(0, 2, 0xC1),
};
static const struct step case_6[] = {
    SET_DIVISOR, WRITE(0, 1, 0x02), READ(0, 2, 0x02), READ(0, 2, 0x01),
};
static const struct step case_7[] = {
    SET_DIVISOR, WRITE(0, 1, 0x0F), ARRIVAL(0, 2, 0x41),
    READ(0, 2, 0x06), READ(0, 5, 0x69), READ(0, 2, 0x04),
};
static const struct step case_8[] = {
    MODEM(0, 4), READ(0, 6, 0x40), MODEM(0, 0), READ(0, 6, 0x04), READ(0, 6, 0x00),
};
static const struct step case_9[] = {
    SET_BASE, RISE(3), RISE(5), ACKNOWLEDGE(0x043, 0),
    PORT_WRITE_OUT(0, 0x20, 1), ACKNOWLEDGE(0x045, 0),
};
static const struct step case_10[] = {
    SET_BASE, RISE(3), ACKNOWLEDGE(0x043, 0), PORT_WRITE(0, 0xA0),
    PLACE_OF(4, 0), PLACE_OF(3, 7),
};
static const struct step case_11[] = {
    SET_BASE, ACKNOWLEDGE(0x147, 0), PORT_WRITE(0, 0x0B), PORT_READ(0, 0x00),
};
static const struct step case_12[] = {
    SET_BASE, RISE(3), ACKNOWLEDGE(0x043, 0), PORT_WRITE(1, 0x08),
    PORT_WRITE(0, 0x68), RISE(5), ACKNOWLEDGE(0x045, 0),
};

/* "Records `07000013 07000140 ..` print .." */
static const struct step printed_example[] = {
    {{0x07, 0x00, 0x00, 0x13}, 1, 0x000, 0}, {{0x07, 0x00, 0x01, 0x40}, 1, 0x000, 0},
    {{0x07, 0x00, 0x01, 0x01}, 1, 0x000, 0}, {{0x01, 0x02, 0x03, 0x83}, 1, 0x000, 0},
    {{0x01, 0x02, 0x00, 0x0C}, 1, 0x000, 0}, {{0x01, 0x02, 0x03, 0x03}, 1, 0x000, 0},
    {{0x01, 0x02, 0x04, 0x08}, 1, 0x000, 0}, {{0x01, 0x02, 0x01, 0x01}, 1, 0x000, 0},
    {{0x02, 0x02, 0x00, 0x47}, 1, 0x000, 1}, {{0x08, 0x00, 0x00, 0x00}, 1, 0x042, 0},
    {{0x00, 0x02, 0x02, 0x00}, 1, 0x004, 0}, {{0x00, 0x02, 0x00, 0x00}, 1, 0x047, 0},
    {{0x00, 0x02, 0x05, 0x00}, 1, 0x060, 0}, {{0x08, 0x00, 0x00, 0x00}, 1, 0x147, 0},
    {{0x07, 0x00, 0x00, 0x20}, 1, 0x000, 0}, {{0x00, 0x09, 0x00, 0x00}, 1, REFUSED_BY(1), 0},
};

/* "Burnt batches" */
static const struct step burnt_flag[] = {
    SET_DIVISOR, WRITE(0, 1, 0x0F), ARRIVAL(0, 0, 0x41),
    READ(0, 2, 0x04), READ(0, 0, 0x41), READ(0, 2, 0x02), READ(0, 2, 0x01),
};
static const struct step burnt_timeout[] = {
    SET_FIFO, WRITE(0, 1, 0x01), ARRIVALS(0, 0x55, 8), PASS(0, 4),
    READ(0, 2, 0xC4), READ(0, 0, 0x55), READ(0, 2, 0xC1),
};
static const struct step burnt_divisor[] = {
    WRITE(0, 1, 0x05), WRITE(0, 3, 0x83), WRITE(0, 1, 0x12), READ(0, 1, 0x12),
    WRITE(0, 3, 0x03), READ(0, 1, 0x05),
};
static const struct step burnt_spurious[] = {
    SET_BASE, ACKNOWLEDGE(0x147, 0), PORT_WRITE(0, 0x0B), PORT_READ(0, 0x00),
    RISE(7), ACKNOWLEDGE(0x047, 0), PORT_READ(0, 0x80),
};
static const struct step burnt_rotation[] = {
    SET_BASE, PORT_WRITE(0, 0xA3), PLACE_OF(0, 0), PLACE_OF(7, 7), PLACE_OF(8, REFUSED_BY(1)),
};

/* Ticket 5: "an arrival leaves a count of 4 at 4 and sets a smaller one to 0",
   and "a time-out that has happened is cleared by reading a character". The
   trigger is 8, and 14 at the end. */
static const struct step timeout_stays[] = {
    SET_FIFO, WRITE(0, 1, 0x01), ARRIVALS(0, 0x55, 4), PASS(0, 3), ARRIVAL(0, 0, 0x56),
    PASS(0, 3), READ(0, 2, 0xC1), PASS(0, 1), READ(0, 2, 0xCC),
    ARRIVAL(0, 0, 0x57), READ(0, 2, 0xCC), READ(0, 5, 0x61), PASS(0, 1), READ(0, 2, 0xCC),
    WRITE(0, 1, 0x00), ARRIVAL(0, 0, 0x58), WRITE(0, 1, 0x01), READ(0, 2, 0xCC),
    READ(0, 0, 0x55), READ(0, 2, 0xC1), PASS(0, 3), ARRIVAL_REFUSED(0), READ(0, 2, 0xC1),
    PASS(0, 1), READ(0, 2, 0xCC), ARRIVAL_REFUSED(0), READ(0, 2, 0xCC),
    ARRIVALS(0, 0x59, 2), READ(0, 2, 0xC4), WRITE(0, 2, 0xC1), READ(0, 2, 0xCC),
};

/* "Edges: seat 7, 8; register 7, 8; port 1, 2; levels 15, 16; 1F and 20 at five
   bits; divisor 1, 0." */
static const struct step edges[] = {
    READ(7, 7, 0x00), READ(8, 7, REFUSED_BY(1)), READ(7, 8, REFUSED_BY(2)),
    SET_BASE, PORT_READ(1, 0x00), PORT_READ(2, REFUSED_BY(2)),
    MODEM(7, 15), {{3, 7, 0, 16}, 1, REFUSED_BY(7), 0},
    {{2, 0, 0, 0}, 1, REFUSED_BY(5), 0}, {{4, 0, 0, 0}, 1, REFUSED_BY(5), 0},
    WRITE(0, 3, 0x80), WRITE(0, 0, 1), WRITE(0, 3, 0x00),
    ARRIVAL(0, 0, 0x1F), {{2, 0, 0, 0x20}, 1, REFUSED_BY(16), 0}, PASS(0, 1),
};

static const struct spoon spoons[] = {
    SPOON("1 power-up", case_1), SPOON("2 16450 overrun", case_2),
    SPOON("3 FIFO overrun", case_3), SPOON("4 trigger", case_4),
    SPOON("5 time-out", case_5), SPOON("6 holding-empty", case_6),
    SPOON("7 framing mark", case_7), SPOON("8 RI", case_8),
    SPOON("9 two lines", case_9), SPOON("10 rotating end", case_10),
    SPOON("11 spurious", case_11), SPOON("12 special mask", case_12),
    SPOON("printed example", printed_example),
    SPOON("burnt: flag cleared on every IIR read", burnt_flag),
    SPOON("burnt: time-out hides a trigger", burnt_timeout),
    SPOON("burnt: register 1 as IER", burnt_divisor),
    SPOON("burnt: line 7 in service", burnt_spurious),
    SPOON("burnt: rotating with nothing in service", burnt_rotation),
    SPOON("ticket 5: a time-out stays at an arrival", timeout_stays),
    SPOON("edges", edges),
};

static bool answer_agrees(struct outcome outcome, unsigned expected)
{
    if (outcome.refusal != REFUSAL_NONE)
        return expected == REFUSED_BY((unsigned)outcome.refusal)
            && outcome.answer == ANSWER_REFUSED && !outcome.is_letter;
    if (expected >= PLAIN(0))
        return expected == PLAIN(outcome.answer) && !outcome.is_letter;
    if (expected >= LETTER(0, 0, 0))
        return expected == LETTER(outcome.answer, outcome.marks, outcome.behind)
            && outcome.is_letter;
    return expected == ANY || outcome.answer == expected;
}

static bool step_agrees(struct tasting *tasting, const struct step *step)
{
    bool agrees = true;
    for (unsigned i = 0; i < step->times; i += 1) {
        struct outcome outcome = tasting_step(tasting, step->event);
        unsigned output = bench_output(&tasting->bench);
        agrees = agrees && answer_agrees(outcome, step->answer);
        agrees = agrees && (step->output == ANY || output == step->output);
    }
    return agrees;
}

static bool spoon_agrees(const struct spoon *spoon)
{
    struct tasting tasting = {.bench = bench_at_power_up(), .saved = {buffer_fresh(), 0}};
    for (size_t i = 0; i < spoon->count; i += 1)
        if (!step_agrees(&tasting, &spoon->steps[i])) {
            printf("%s: differs at step %zu\n", spoon->name, i);
            return false;
        }
    printf("%s: agrees\n", spoon->name);
    return true;
}

static int run_each(const struct spoon *list, size_t count)
{
    int result = 0;
    for (size_t i = 0; i < count; i += 1)
        if (!spoon_agrees(&list[i]))
            result = 1;
    return result;
}

int spoons_run(void)
{
    int own = run_each(spoons, sizeof spoons / sizeof spoons[0]);
    int letters = run_each(letter_spoons, LETTER_SPOONS);
    int loopback = run_each(loopback_spoons, LOOPBACK_SPOONS);
    int ledgers = run_each(ledger_spoons, LEDGER_SPOONS);
    return output_result(own | letters | loopback | ledgers);
}
