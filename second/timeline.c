#include "timeline.h"

#include <inttypes.h>
#include <stdio.h>

#include "account.h"
#include "state.h"

#define LSR_BITS 8U
#define QUEUED_BITS 5U

/* "Where records come from standard input nobody knows yet which those are, and
   all eight are told." */
#define ALL_SEATS 0xFFU

/* "those that a record of the lesson names (kinds 0 to 4, seat up to 7)" */
static unsigned seats_named(struct lesson *lesson)
{
    unsigned seats = 0;
    struct lesson_record record = lesson_next(lesson);
    while (record.length == RECORD_BYTES) {
        struct moment moment = {.event = record_event(record.bytes)};
        unsigned seat = account_seat(&moment);
        seats |= seat < SEATS ? 1U << seat : 0U;
        record = lesson_next(lesson);
    }
    lesson_rewind(lesson);
    return seats;
}

static unsigned seats_in_use(const struct bench *bench)
{
    unsigned seats = 0;
    for (unsigned seat = 0; seat < SEATS; seat += 1)
        if (state_in_use(&bench->seats[seat]))
            seats |= 1U << seat;
    return seats;
}

static void declare_line(unsigned line)
{
    printf("$scope module line%u $end\n", line);
    printf("$var wire 1 l%u level%u $end\n", line, line);
    printf("$var wire 1 r%u request%u $end\n", line, line);
    printf("$var wire 1 s%u service%u $end\n", line, line);
    printf("$var wire 1 m%u mask%u $end\n", line, line);
    printf("$upscope $end\n");
}

/* "bit by bit, the highest first" */
static void declare_bits(char name, const char *word, unsigned seat, unsigned bits)
{
    for (unsigned bit = bits; bit > 0; bit -= 1)
        printf("$var wire 1 %c%u%u %s%u[%u] $end\n", name, seat, bit - 1U, word, seat, bit - 1U);
}

static void declare_seat(unsigned seat)
{
    printf("$scope module seat%u $end\n", seat);
    declare_bits('L', "lsr", seat, LSR_BITS);
    declare_bits('q', "queued", seat, QUEUED_BITS);
    printf("$upscope $end\n");
}

static void declare(unsigned seats)
{
    printf("$version hailstoat $end\n$timescale 1 us $end\n$scope module bench $end\n");
    printf("$var wire 1 o output $end\n");
    for (unsigned line = 0; line < LINES; line += 1)
        declare_line(line);
    for (unsigned seat = 0; seat < SEATS; seat += 1)
        if ((seats >> seat & 1U) != 0)
            declare_seat(seat);
    printf("$upscope $end\n$enddefinitions $end\n");
}

/* Two benches, of which the later is told where it is another; the earlier is
   NULL where all is told. */
struct step {
    const struct bench *earlier;
    const struct bench *later;
};

/* "`0` or `1` and the short name" */
static void tell_line(const struct step *step, char name, unsigned line,
                      unsigned (*set_of)(const struct bench *bench))
{
    unsigned bit = set_of(step->later) >> line & 1U;
    if (step->earlier == NULL || (set_of(step->earlier) >> line & 1U) != bit)
        printf("%u%c%u\n", bit, name, line);
}

static unsigned levels_of(const struct bench *bench)
{
    return bench->controller.lines;
}

/* "A request is one that stands, masked or not." */
static unsigned requests_of(const struct bench *bench)
{
    return controller_standing(&bench->controller);
}

static unsigned services_of(const struct bench *bench)
{
    return bench->controller.in_service;
}

static unsigned masks_of(const struct bench *bench)
{
    return bench->controller.mask;
}

/* "the lines of those variables that have changed": of a number the bits that have, and not the others. */
static void tell_number(const struct step *step, char name, unsigned seat, unsigned bits,
                        unsigned (*number_of)(const struct channel *seat))
{
    unsigned number = number_of(&step->later->seats[seat]);
    unsigned changed = step->earlier == NULL ? ~0U : number ^ number_of(&step->earlier->seats[seat]);
    for (unsigned bit = bits; bit > 0; bit -= 1)
        if ((changed >> (bit - 1U) & 1U) != 0)
            printf("%u%c%u%u\n", number >> (bit - 1U) & 1U, name, seat, bit - 1U);
}

static unsigned queued_of(const struct channel *seat)
{
    return seat->receive.count;
}

/* "in the order in which they are declared" */
static void tell(const struct step *step, unsigned seats)
{
    unsigned output = bench_output(step->later);
    if (step->earlier == NULL || bench_output(step->earlier) != output)
        printf("%uo\n", output);
    for (unsigned line = 0; line < LINES; line += 1) {
        tell_line(step, 'l', line, levels_of);
        tell_line(step, 'r', line, requests_of);
        tell_line(step, 's', line, services_of);
        tell_line(step, 'm', line, masks_of);
    }
    for (unsigned seat = 0; seat < SEATS; seat += 1)
        if ((seats >> seat & 1U) != 0) {
            tell_number(step, 'L', seat, LSR_BITS, channel_lsr);
            tell_number(step, 'q', seat, QUEUED_BITS, queued_of);
        }
}

void timeline_run(struct bench bench, struct source *source)
{
    uint64_t number = 0;
    struct event event;
    unsigned seats = source->is_lesson ? seats_named(&source->lesson) | seats_in_use(&bench) : ALL_SEATS;
    declare(seats);
    printf("#0\n");
    tell(&(struct step){NULL, &bench}, seats);
    struct lesson_record record = source_next(source);
    while (record.length > 0) {
        struct bench before = bench;
        source_event(&bench, &record, &event);
        number += 1;
        printf("#%" PRIu64 "\n", number);
        tell(&(struct step){&before, &bench}, seats);
        record = record.length == RECORD_BYTES ? source_next(source) : (struct lesson_record){0};
    }
    /* "`#N` once more with the N that comes next" */
    printf("#%" PRIu64 "\n", number + 1U);
}
