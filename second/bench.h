#ifndef BENCH_H
#define BENCH_H

#include "channel.h"
#include "controller.h"
#include "outcome.h"

#define SEATS 8U

/* "An event is a four-byte record: kind, seat, number, value." */
struct event {
    unsigned kind;
    unsigned seat;
    unsigned number;
    unsigned value;
};

enum kind {
    KIND_READ_REGISTER = 0,
    KIND_WRITE_REGISTER = 1,
    KIND_ARRIVAL = 2,
    KIND_MODEM_INPUTS = 3,
    KIND_CHARACTER_TIME = 4,
    KIND_MASTER_RESET = 5,
    KIND_READ_CONTROLLER = 6,
    KIND_WRITE_CONTROLLER = 7,
    KIND_ACKNOWLEDGE = 8
};

/* "Seat n is one serial channel; its interrupt output is line n of one
   8259A." */
struct bench {
    struct channel seats[SEATS];
    struct controller controller;
};

struct bench bench_at_power_up(void);
struct outcome bench_event(struct bench *bench, struct event event);
unsigned bench_output(const struct bench *bench);

/* The seats whose line is high, seat n as bit n. */
unsigned bench_lines(const struct bench *bench);

/* "a line's place in turn (.. line above 7 gives refusal 1)" */
struct outcome bench_place(const struct bench *bench, unsigned line);

/* Ticket 8: a seat's tallies; a seat above 7 gives refusal 1 (S178). */
struct ledger_answer bench_ledger(const struct bench *bench, unsigned seat);

#endif
