/* Events with one number past a byte, each as the second program has it, which
   knows no bytes: an event that names seat 258 is refused, and one that uses no
   seat is done. */
#include "wide.h"

#include <stdio.h>

#include "compare.h"
#include "stream.h"

#define WIDE_EVENTS 20000UL

/* What is added to a number: cut to a byte, the last is one less, the others are as before. */
static const uint32_t past[] = {0x100, 0x10000, 0x80000000, UINT32_MAX};
#define PASTS (sizeof past / sizeof past[0])

static void widen(struct event *e, unsigned long at)
{
    uint32_t by = past[at / 3 % PASTS];
    unsigned *const numbers[] = {&e->kind, &e->seat, &e->number};
    unsigned *number = numbers[at % 3];
    *number = *number > UINT32_MAX - by ? UINT32_MAX : *number + by;
}

/* The one that the control software's writer would meet first. */
static void seat_258(void)
{
    struct hailstoat_bench bench = {0};
    uint64_t word = hailstoat_event(&bench, HAILSTOAT_WRITE_REGISTER, 258, HAILSTOAT_SCRATCH, 0x47);
    if (hailstoat_word_refusal(word) != HAILSTOAT_SEAT_ABOVE || bench.seats[2].settings.scratch != 0)
        fail("a write to seat 258 is not refused");
}

void wide_numbers(void)
{
    struct hailstoat_bench lent = {0};
    struct bench second = bench_at_power_up();
    struct stream stream = stream_begin(5, 0);
    unsigned long refused = 0;
    seat_258();
    for (unsigned long at = 0; at < WIDE_EVENTS; at += 1) {
        struct event e = stream_next(&stream);
        one_event(&lent, &second, "wide numbers", at, e);
        widen(&e, at);
        refused += one_event(&lent, &second, "wide numbers", at, e) != REFUSAL_NONE;
    }
    if (refused == 0 || refused == WIDE_EVENTS)
        fail("of events with a number past a byte all were refused, or none");
    printf("wide numbers: %lu, of which %lu refused; no number is cut\n", WIDE_EVENTS, refused);
}
