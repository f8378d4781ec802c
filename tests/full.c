/* Ticket 8: "19, last in order, where arrived would pass its largest value". */
#include "full.h"

#include <stdio.h>

#include "compare.h"
#include "starts.h"
#include "stream.h"

#define NEARLY_FULL 1 /* of starts */
#define EVENTS_EACH 50000UL

/* How often 19 was given, by the kind of the event. */
struct met {
    unsigned long arrivals;
    unsigned long times;
};

/* The bench that differs from power-up in the tallies of its seats alone, which are the second program's. */
static struct hailstoat_bench with_tallies(const struct bench *second)
{
    struct hailstoat_bench bench = {0};
    for (unsigned seat = 0; seat < HAILSTOAT_SEATS; seat += 1) {
        const struct ledger *ledger = &second->seats[seat].ledger;
        bench.seats[seat].tallies = (struct hailstoat_four){
            .arrived = ledger->arrived, .read = ledger->read, .lost = ledger->lost, .dropped = ledger->dropped};
    }
    return bench;
}

static void count(struct met *met, unsigned refusal, unsigned kind)
{
    if (refusal != HAILSTOAT_TALLY_FULL)
        return;
    met->arrivals += kind == HAILSTOAT_ARRIVAL;
    met->times += kind == HAILSTOAT_CHARACTER_TIME;
}

static void run(struct met *met, uint32_t seed, unsigned set)
{
    struct bench second = starts[NEARLY_FULL]();
    struct hailstoat_bench lent = with_tallies(&second);
    struct stream stream = stream_begin(seed, set);
    for (unsigned long at = 0; at < EVENTS_EACH; at += 1) {
        struct event e = stream_next(&stream);
        count(met, one_event(&lent, &second, "full tallies", at, e), e.kind);
    }
}

void full_tallies(void)
{
    struct met met = {0};
    for (unsigned set = 0; set < SETS; set += 1)
        run(&met, 21 + set, set);
    if (met.arrivals == 0 || met.times == 0)
        fail("no arrival, or no character time, was more than a tally holds");
    printf("full tallies: %lu events, of which %lu arrivals and %lu character times are refused by 19\n",
           SETS * EVENTS_EACH, met.arrivals, met.times);
}
