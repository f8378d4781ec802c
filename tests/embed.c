/* The library against the header, and against the second program's bench:
   embed RATES, where RATES is the stored divisor list (lines of clock, rate,
   refusal, answer). Prints one line for each test; stops at the first that
   fails. */
#include <stdio.h>

#include "compare.h"
#include "edges.h"
#include "fields.h"
#include "full.h"
#include "layout.h"
#include "names.h"
#include "setting_calls.h"
#include "stops.h"
#include "stream.h"
#include "threads.h"
#include "wide.h"

#define EVENTS_EACH 200000UL

static const uint32_t seeds[] = {1, 2, 3, 20261115, 4294967295};
#define SEEDS (sizeof seeds / sizeof seeds[0])

/* That library and header are one version. */
static void version_and_size(void)
{
    if (hailstoat_version() != HAILSTOAT_VERSION)
        fail("hailstoat_version() is not HAILSTOAT_VERSION");
    if (hailstoat_size() != sizeof(struct hailstoat_bench))
        fail("hailstoat_size() is not sizeof (struct hailstoat_bench)");
    printf("version %lu, size %zu bytes, in the library and in the header\n", (unsigned long)hailstoat_version(),
           hailstoat_size());
}

/* Whatever has happened to a bench, power-up leaves every field 0. */
static void power_up(void)
{
    static const struct hailstoat_bench zero = {0};
    struct hailstoat_bench bench = {0};
    struct stream stream = stream_begin(7, 0);
    for (unsigned i = 0; i < 1000; i += 1) {
        struct event e = stream_next(&stream);
        hailstoat_event(&bench, e.kind, e.seat, e.number, (uint8_t)e.value);
    }
    if (same_fields(&bench, &zero))
        fail("a thousand events leave the bench zero");
    hailstoat_power_up(&bench);
    if (!same_fields(&bench, &zero))
        fail("power-up leaves a field that is not 0");
    printf("power-up: every field is 0\n");
}

static void streams(void)
{
    unsigned long refused = 0;
    struct stops all = {0};
    for (size_t i = 0; i < SEEDS; i += 1) {
        char what[32];
        snprintf(what, sizeof what, "seed %lu", (unsigned long)seeds[i]);
        struct pair pair = {.second = bench_at_power_up()};
        struct stream stream = stream_begin(seeds[i], 0);
        struct stops stops = stops_begin(seeds[i]);
        for (unsigned long at = 0; at < EVENTS_EACH; at += 1) {
            refused += one_event(&pair.lent, &pair.second, what, at, stream_next(&stream)) != REFUSAL_NONE;
            stop_sometimes(&stops, &pair, what, at);
        }
        stops_add(&all, &stops);
    }
    printf("events: %lu, of which %lu refused; answers, letters, outputs, places, modem outputs, tallies and fields as the second program's\n",
           SEEDS * EVENTS_EACH, refused);
    stops_told(&all);
}

static void edges(void)
{
    for (size_t i = 0; i < edge_count; i += 1)
        if (!edge_holds(&edge_list[i])) {
            fprintf(stderr, "%s: ", edge_list[i].what);
            fail("not as the documents have it");
        }
    printf("edges: %u; past each its refusal and every field as before\n", (unsigned)edge_count);
}

static void divisors(const char *path)
{
    const struct outcome not_listed = refused((enum refusal)HAILSTOAT_NOT_LISTED);
    unsigned clock, refusal, answer, lines = 0;
    unsigned long rate;
    FILE *list = fopen(path, "r");
    if (list == NULL)
        fail("the stored divisor list cannot be read");
    while (fscanf(list, "%u %lu %u %x", &clock, &rate, &refusal, &answer) == 4) {
        uint64_t word = hailstoat_divisor((uint32_t)rate, clock);
        if (!told(word, (struct outcome){.refusal = (enum refusal)refusal, .answer = answer}, 0))
            fail("a divisor differs from the stored list");
        if (!told(hailstoat_divisor((uint32_t)rate, clock + 256), not_listed, 0))
            fail("a clock past a byte is not refused");
        lines += 1;
    }
    if (!feof(list) || lines == 0)
        fail("the stored divisor list is not read to its end");
    fclose(list);
    printf("divisors: %u questions, answered as the stored list has it\n", lines);
}

int main(int count, char **words)
{
    if (count != 2)
        fail("usage: embed RATES");
    version_and_size();
    layout();
    power_up();
    names_mean();
    streams();
    full_tallies();
    wide_numbers();
    two_threads();
    edges();
    divisors(words[1]);
    setting_lines();
    return fflush(stdout) != 0;
}
