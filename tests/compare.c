/* The library and the second program's bench, an event at a time. */
#include "compare.h"

#include <stdio.h>
#include <stdlib.h>

#include "fields.h"

#define OUTPUTS 0x0FU /* of MCR */
#define BITS_KEPT_FREE 0xFFFF0000FE000000U /* of a word */

void fail(const char *what)
{
    fprintf(stderr, "tests/embed: %s\n", what);
    exit(1);
}

static void differs(const char *what, unsigned long at, const char *how, struct event e)
{
    fprintf(stderr, "%s, event %lu (%02X %02X %02X %02X): ", what, at, e.kind, e.seat, e.number, e.value);
    fail(how);
}

int told(uint64_t word, struct outcome outcome, unsigned output)
{
    return hailstoat_word_refusal(word) == (unsigned)outcome.refusal
        && hailstoat_word_answer(word) == outcome.answer && hailstoat_word_output(word) == output
        && hailstoat_word_marks(word) == outcome.marks && hailstoat_word_behind(word) == outcome.behind
        && (word & BITS_KEPT_FREE) == 0;
}

/* "acknowledge": "the vector; 100 + vector if spurious" */
static int acknowledged(uint64_t word, struct outcome outcome)
{
    unsigned spurious = outcome.refusal == REFUSAL_NONE && outcome.answer >= 0x100;
    return hailstoat_word_spurious(word) == spurious && hailstoat_word_vector(word) == outcome.answer % 0x100;
}

static int same_places(const struct hailstoat_bench *lent, const struct bench *second)
{
    static const uint32_t lines[] = {0, 1, 2, 3, 4, 5, 6, 7, 8, 255, 256, 264, 0x80000000, UINT32_MAX};
    for (size_t i = 0; i < sizeof lines / sizeof lines[0]; i += 1)
        if (!told(hailstoat_place(lent, lines[i]), bench_place(second, lines[i]), 0))
            return 0;
    return 1;
}

/* Document 004, of MCR bit 4: "The modem control output terminals are forced to their inactive (high) state". */
static unsigned active_outputs(unsigned mcr)
{
    return (mcr & HAILSTOAT_MCR_LOOP) != 0 ? 0 : mcr & OUTPUTS;
}

static int same_outputs(const struct hailstoat_bench *lent, const struct bench *second, uint32_t seat)
{
    struct outcome outcome = refused(REFUSAL_SEAT_ABOVE);
    if (seat < SEATS)
        outcome = accepted(active_outputs(second->seats[seat].mcr));
    return told(hailstoat_modem_outputs(lent, seat), outcome, 0);
}

/* Ticket 8: "arrived, read, lost by overrun, dropped by emptying, still queued"; where there is no such seat all are 0. */
static int same_five(const struct hailstoat_bench *lent, const struct bench *second, uint32_t seat)
{
    struct hailstoat_five five = {1, 2, 3, 4, 5};
    uint64_t word = hailstoat_tallies(lent, seat, &five);
    struct ledger_answer wanted = bench_ledger(second, seat);
    return told(word, wanted.refusal == REFUSAL_NONE ? accepted(0) : refused(wanted.refusal), 0)
        && five.arrived == wanted.figures[FIGURE_ARRIVED] && five.read == wanted.figures[FIGURE_READ]
        && five.lost == wanted.figures[FIGURE_LOST] && five.dropped == wanted.figures[FIGURE_DROPPED]
        && five.queued == wanted.figures[FIGURE_QUEUED];
}

static int same_tallies(const struct hailstoat_bench *lent, const struct bench *second, uint32_t named)
{
    for (uint32_t seat = 0; seat < HAILSTOAT_SEATS; seat += 1)
        if (!same_five(lent, second, seat))
            return 0;
    return same_five(lent, second, named);
}

unsigned one_event(struct hailstoat_bench *lent, struct bench *second, const char *what, unsigned long at,
                   struct event e)
{
    struct hailstoat_bench before = *lent;
    uint64_t word = hailstoat_event(lent, e.kind, e.seat, e.number, (uint8_t)e.value);
    struct outcome outcome = bench_event(second, e);
    if (!told(word, outcome, bench_output(second)))
        differs(what, at, "refusal, answer, marks, number behind or output differs", e);
    if (e.kind == HAILSTOAT_ACKNOWLEDGE && !acknowledged(word, outcome))
        differs(what, at, "the vector, or whether it was spurious, differs", e);
    if (hailstoat_output(lent) != bench_output(second))
        differs(what, at, "the output differs", e);
    if (outcome.refusal != REFUSAL_NONE && !same_fields(&before, lent))
        differs(what, at, "a refused event changed the bench", e);
    if (!same_places(lent, second))
        differs(what, at, "the place of a line differs", e);
    if (!same_outputs(lent, second, e.seat))
        differs(what, at, "the modem outputs differ", e);
    if (!same_tallies(lent, second, e.seat))
        differs(what, at, "the tallies of a seat differ", e);
    if (fields_differ(lent, second) != NULL)
        differs(what, at, fields_differ(lent, second), e);
    return outcome.refusal;
}
