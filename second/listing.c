#include "listing.h"

#include <inttypes.h>
#include <stdio.h>

#include "digest.h"
#include "output.h"
#include "records.h"

/* "record number in decimal from 0, refusal number (0 for none), answer in
   three hex capitals, output after the event; single spaces" */
static void print_line(uint64_t number, struct outcome outcome, unsigned output)
{
    printf("%" PRIu64 " %u %03X %u", number, (unsigned)outcome.refusal, outcome.answer, output);
}

/* "The RBR answer gains these figures; the listing stays." */
static void print_letter(struct outcome outcome)
{
    if (outcome.is_letter)
        printf(" marks %u behind %u", outcome.marks, outcome.behind);
}

/* The tallies that the trials ask for after a record. */
static void print_asked(const struct bench *bench, struct event event)
{
    struct ledger_answer answer = bench_ledger(bench, event.seat % LEDGER_SEATS);
    if (answer.refusal != REFUSAL_NONE)
        return;
    printf(" tallies");
    for (unsigned i = 0; i < FIGURES; i += 1)
        printf(" %" PRIu32, answer.figures[i]);
}

/* Ticket 8, of every seat (S189). */
static void print_tallies(const struct bench *bench)
{
    static const char *const words[FIGURES] = {"arrived", "read", "lost", "dropped", "queued"};
    for (unsigned seat = 0; seat < SEATS; seat += 1) {
        struct ledger_answer answer = bench_ledger(bench, seat);
        fprintf(stderr, "seat %u", seat);
        for (unsigned i = 0; i < FIGURES; i += 1)
            fprintf(stderr, " %s %" PRIu32, words[i], answer.figures[i]);
        fprintf(stderr, "\n");
    }
}

static void print_record(const uint8_t *record, size_t length)
{
    for (size_t i = 0; i < length; i += 1)
        printf("%02X", (unsigned)record[i]);
    printf(" ");
}

static int list(struct bench *bench, bool showing, const struct saves *saves)
{
    struct records records;
    uint8_t record[RECORD_BYTES];
    records_begin(&records, stdin);

    int result = saves_at_start(saves, bench);
    uint64_t number = 0;
    size_t length = records_next(&records, record);
    while (length > 0) {
        /* "record of 1 to 3 bytes at the end of input" */
        bool whole = length == RECORD_BYTES;
        struct outcome outcome =
            whole ? bench_event(bench, record_event(record)) : refused(REFUSAL_SHORT);
        if (showing)
            print_record(record, length);
        print_line(number, outcome, bench_output(bench));
        if (showing)
            print_letter(outcome);
        if (showing && whole)
            print_asked(bench, record_event(record));
        printf("\n");
        result |= saves_at_record(saves, bench, number);
        number += 1;
        /* "It stops after refusal 4." */
        length = whole ? records_next(&records, record) : 0;
    }
    result |= saves_at_end(saves, bench);
    result |= saves_missed(saves, number);
    if (saves->tallies)
        print_tallies(bench);
    return answers_result(result);
}

int listing_run(struct bench bench, const struct saves *saves)
{
    return list(&bench, false, saves);
}

int listing_show(struct bench bench)
{
    return list(&bench, true, &(struct saves){0});
}
