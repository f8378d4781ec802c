/* Events through the C interface, for tools/speed to measure.

     events mix ROUNDS        ROUNDS times six events, the life of a character of document 01's worked records: arrival,
                              acknowledge, IIR, RBR, LSR, plain end
     events lsr ROUNDS        ROUNDS times six reads of LSR
     events records ROUNDS    writes the mix as records, after those that set the bench up

   The status is 1 where a word is not the one expected, so that no figure is taken of a bench that errs. */
#include <stdio.h>
#include <stdlib.h>
#include <string.h>

#include "hailstoat.h"

/* Each event as kind, seat, number, value, and the word that it gives. */

/* The controller ready at base 40; seat 2 with divisor 12, eight bits, its line let through and data enabled. */
#define SET_UP(E) \
    E(7, 0, 0, 0x13, 0) E(7, 0, 1, 0x40, 0) E(7, 0, 1, 0x01, 0) \
    E(1, 2, 3, 0x83, 0) E(1, 2, 0, 0x0C, 0) E(1, 2, 3, 0x03, 0) E(1, 2, 4, 0x08, 0) E(1, 2, 1, 0x01, 0)

#define MIX(E) \
    E(2, 2, 0, 0x47, 0x01000000) E(8, 0, 0, 0, 0x42) \
    E(0, 2, 2, 0, 0x04) E(0, 2, 0, 0, 0x47) E(0, 2, 5, 0, 0x60) E(7, 0, 0, 0x20, 0)

#define LSR_READS(E) \
    E(0, 2, 5, 0, 0x60) E(0, 2, 5, 0, 0x60) E(0, 2, 5, 0, 0x60) \
    E(0, 2, 5, 0, 0x60) E(0, 2, 5, 0, 0x60) E(0, 2, 5, 0, 0x60)

#define RUN(kind, seat, number, value, word) wrong |= hailstoat_event(&bench, kind, seat, number, value) ^ (word);
#define WRITE(kind, seat, number, value, word) fwrite((const uint8_t[]){kind, seat, number, value}, 1, 4, stdout);

static struct hailstoat_bench bench;

static uint64_t set_up(void)
{
    uint64_t wrong = 0;
    hailstoat_power_up(&bench);
    SET_UP(RUN)
    return wrong;
}

static uint64_t run_mix(long rounds)
{
    uint64_t wrong = set_up();
    for (long k = 0; k < rounds; k += 1) {
        MIX(RUN)
    }
    return wrong;
}

static uint64_t run_lsr(long rounds)
{
    uint64_t wrong = set_up();
    for (long k = 0; k < rounds; k += 1) {
        LSR_READS(RUN)
    }
    return wrong;
}

static uint64_t write_records(long rounds)
{
    SET_UP(WRITE)
    for (long k = 0; k < rounds; k += 1) {
        MIX(WRITE)
    }
    return fflush(stdout) != 0;
}

int main(int count, char **words)
{
    static const struct {
        const char *name;
        uint64_t (*run)(long rounds);
    } ways[] = {{"mix", run_mix}, {"lsr", run_lsr}, {"records", write_records}};
    if (count == 3)
        for (size_t i = 0; i < sizeof ways / sizeof ways[0]; i += 1)
            if (strcmp(words[1], ways[i].name) == 0)
                return ways[i].run(atol(words[2])) != 0;
    return 2;
}
