/* The tallies stand in the order arrived, read, lost, dropped, queued. */
#include "ledger_spoons.h"

#define MOST 0xFFFFFFFFU

#define MCR(byte) WRITE(0, 4, byte)
#define FCR(byte) WRITE(0, 2, byte)
#define SEND(byte) WRITE(0, 0, byte)
#define TAKE(byte) READ(0, 0, byte)

/* A character time whose answer is not 100. */
#define TIME(answer) {{4, 0, 0, 0}, 1, answer, ANY}
#define TIMES_REFUSED(refusal, times) {{4, 0, 0, 0}, times, REFUSED_BY(refusal), ANY}
#define ARRIVAL_REFUSED_BY(refusal, marks, data) {{2, 0, marks, data}, 1, REFUSED_BY(refusal), ANY}

/* Seat 0 goes on with this many arrived, all of them read; its queue is empty. */
#define BEGIN_AT(arrived) \
    SAVE, PUT(0, 0, arrived), PUT(0, 1, arrived), PUT(0, 2, 0), PUT(0, 3, 0), READ_BACK

#define SET_DIVISOR_1 WRITE(1, 3, 0x83), WRITE(1, 0, 12), WRITE(1, 3, 0x03)

/* "arrived, read, .. still queued": no other seat, no refused arrival, no read that
   takes nothing. */
static const struct step arrived_and_read[] = {
    TALLIES(0, 0, 0, 0, 0, 0), SET_FIFO, ARRIVALS(0, 0x41, 3), TALLIES(0, 3, 0, 0, 0, 3),
    TAKE(0x41), TALLIES(0, 3, 1, 0, 0, 2), ARRIVAL_REFUSED(0), TALLIES(0, 3, 1, 0, 0, 2),
    WRITE(0, 3, 0x83), READ(0, 0, 12), WRITE(0, 3, 0x03), READ(0, 5, 0x61),
    TALLIES(0, 3, 1, 0, 0, 2), TAKE(0x41), TAKE(0x41), TALLIES(0, 3, 3, 0, 0, 0),
    TAKE(0x41), TAKE(0x41), TALLIES(0, 3, 3, 0, 0, 0), TALLIES(1, 0, 0, 0, 0, 0),
    ARRIVAL(0, 6, 0x00), TALLIES(0, 4, 3, 0, 0, 1),
};
/* "lost by overrun", in FIFO mode the new one */
static const struct step lost_in_fifo[] = {
    SET_FIFO, ARRIVALS(0, 0x41, 16), TALLIES(0, 16, 0, 0, 0, 16),
    ARRIVALS(0, 0x42, 2), TALLIES(0, 18, 0, 2, 0, 16), READ(0, 5, 0x63),
    TALLIES(0, 18, 0, 2, 0, 16), ARRIVAL(0, 0, 0x43), TALLIES(0, 19, 0, 3, 0, 16),
    TAKE(0x41), ARRIVAL(0, 0, 0x44), TALLIES(0, 20, 1, 3, 0, 16),
};
/* "Replaced characters count as overrun": 1 is read, 2 are replaced */
static const struct step replaced[] = {
    SET_DIVISOR, ARRIVAL(0, 0, 0x41), TALLIES(0, 1, 0, 0, 0, 1),
    ARRIVAL(0, 0, 0x42), TALLIES(0, 2, 0, 1, 0, 1), ARRIVAL(0, 0, 0x43),
    TALLIES(0, 3, 0, 2, 0, 1), TAKE(0x43), TALLIES(0, 3, 1, 2, 0, 0),
};
/* "dropped by emptying": by FCR bit 1 with bit 0, and by a changed bit 0 */
static const struct step dropped[] = {
    SET_DIVISOR, ARRIVAL(0, 0, 0x41), FCR(0x02), FCR(0x06), TALLIES(0, 1, 0, 0, 0, 1),
    FCR(0x01), TALLIES(0, 1, 0, 0, 1, 0),
    ARRIVALS(0, 0x42, 5), SEND(0x61), FCR(0x05), FCR(0xC1), TALLIES(0, 6, 0, 0, 1, 5),
    FCR(0x83), TALLIES(0, 6, 0, 0, 6, 0), FCR(0x83), TALLIES(0, 6, 0, 0, 6, 0),
    ARRIVALS(0, 0x43, 17), TALLIES(0, 23, 0, 1, 6, 16), FCR(0x00), TALLIES(0, 23, 0, 1, 22, 0),
    ARRIVAL(0, 0, 0x44), FCR(0x03), TALLIES(0, 24, 0, 1, 23, 0),
    ARRIVAL(0, 0, 0x45), FCR(0x02), TALLIES(0, 25, 0, 1, 24, 0),
};
/* "a master reset drops", of every seat, and "since power-up" goes over it */
static const struct step reset[] = {
    SET_FIFO, SET_DIVISOR_1, ARRIVALS(0, 0x41, 18), TAKE(0x41), SEND(0x61), PASS(0, 1),
    ARRIVAL(1, 0, 0x42), ARRIVAL(1, 0, 0x43), MASTER_RESET,
    TALLIES(0, 18, 1, 2, 15, 0), TALLIES(1, 2, 0, 1, 1, 0), TALLIES(2, 0, 0, 0, 0, 0),
    MASTER_RESET, TALLIES(0, 18, 1, 2, 15, 0), WRITE(0, 3, 0x03),
    ARRIVAL(0, 0, 0x44), TALLIES(0, 19, 1, 2, 15, 1),
};
/* "a loopback reception counts as arrived, an outside arrival in loopback does not" */
static const struct step looped[] = {
    SET_FIFO, MCR(0x10), SEND(0x41), SEND(0x42), PASS(0, 1), TALLIES(0, 0, 0, 0, 0, 0),
    PASS(0, 1), TALLIES(0, 1, 0, 0, 0, 1), ARRIVAL(0, 0, 0x55), TALLIES(0, 1, 0, 0, 0, 1),
    PASS(0, 1), TALLIES(0, 2, 0, 0, 0, 2), PASS(0, 3), TALLIES(0, 2, 0, 0, 0, 2),
    MCR(0x00), SEND(0x43), PASS(0, 1), TIME(0x43), TALLIES(0, 2, 0, 0, 0, 2),
    ARRIVALS(0, 0x56, 14), MCR(0x10), SEND(0x44), PASS(0, 2), TALLIES(0, 17, 0, 1, 0, 16),
    TAKE(0x41), FCR(0x83), TALLIES(0, 17, 1, 1, 15, 0),
    FCR(0x00), SEND(0x45), PASS(0, 1), SEND(0x46), PASS(0, 2), TALLIES(0, 19, 1, 2, 15, 1),
};
/* The call is no event: seats above 7 of any size. */
static const struct step asked[] = {
    TALLIES(7, 0, 0, 0, 0, 0), TALLIES_REFUSED(8), TALLIES_REFUSED(9), TALLIES_REFUSED(255),
    TALLIES_REFUSED(256), TALLIES_REFUSED(0x80000000U), TALLIES_REFUSED(MOST),
};
/* "19 .. where arrived would pass its largest value" */
static const struct step largest[] = {
    SET_FIFO, WRITE(0, 1, 0x01), BEGIN_AT(MOST - 1), ARRIVAL(0, 0, 0x41),
    TALLIES(0, MOST, MOST - 1, 0, 0, 1), PASS(0, 3), ARRIVAL_REFUSED_BY(19, 0, 0x42),
    ARRIVAL_REFUSED_BY(19, 2, 0x42), READ(0, 5, 0x61), PASS(0, 1), READ(0, 2, 0xCC),
    TALLIES(0, MOST, MOST - 1, 0, 0, 1), TAKE(0x41), TALLIES(0, MOST, MOST, 0, 0, 0),
    ARRIVAL_REFUSED_BY(19, 0, 0x42), FCR(0x00), MASTER_RESET, WRITE(0, 3, 0x03),
    ARRIVAL_REFUSED_BY(19, 2, 0x42), READ(0, 5, 0x60), TALLIES(0, MOST, MOST, 0, 0, 0),
    SET_DIVISOR_1, ARRIVAL(1, 0, 0x41), TALLIES(1, 1, 0, 0, 0, 1),
};
/* A full queue gives 19 too, and no overrun. */
static const struct step largest_and_full[] = {
    SET_FIFO, BEGIN_AT(MOST - 16), ARRIVALS(0, 0x41, 16),
    TALLIES(0, MOST, MOST - 16, 0, 0, 16), ARRIVAL_REFUSED_BY(19, 0, 0x42), READ(0, 5, 0x61),
    FCR(0x00), TALLIES(0, MOST, MOST - 16, 0, 16, 0), BEGIN_AT(5), TALLIES(0, 5, 5, 0, 0, 0),
    BEGIN_AT(MOST - 1), ARRIVAL(0, 0, 0x43), ARRIVAL_REFUSED_BY(19, 4, 0x00), READ(0, 5, 0x61),
    TAKE(0x43), TALLIES(0, MOST, MOST, 0, 0, 0),
};
/* "last in order" */
static const struct step last_in_order[] = {
    SET_DIVISOR, BEGIN_AT(MOST), ARRIVAL_REFUSED_BY(19, 0, 0x41), ARRIVAL_REFUSED_BY(6, 8, 0x41),
    ARRIVAL_REFUSED_BY(17, 1, 0x41), ARRIVAL_REFUSED_BY(18, 4, 0x41), WRITE(0, 3, 0x00),
    ARRIVAL_REFUSED_BY(16, 0, 0x20), ARRIVAL_REFUSED_BY(19, 0, 0x1F), MCR(0x10), SEND(0x41),
    PASS(0, 1), TIMES_REFUSED(19, 1), WRITE(0, 3, 0x80), SEND(0), TIMES_REFUSED(5, 1),
    ARRIVAL_REFUSED_BY(5, 0, 0x00), MCR(0x00), ARRIVAL_REFUSED_BY(5, 0, 0x00),
};
/* "nothing changes": 41 has come in, 42 stays in the shift register and 43 behind it;
   the time-out count stays at 1. An arrival from outside is no arrival. */
static const struct step held[] = {
    SET_DIVISOR, FCR(0xC1), WRITE(0, 1, 0x01), BEGIN_AT(MOST - 1), MCR(0x10),
    SEND(0x41), SEND(0x42), SEND(0x43), PASS(0, 2), TALLIES(0, MOST, MOST - 1, 0, 0, 1),
    TIMES_REFUSED(19, 5), READ(0, 5, 0x01), READ(0, 2, 0xC1),
    TALLIES(0, MOST, MOST - 1, 0, 0, 1), ARRIVAL(0, 0, 0x55),
    MCR(0x00), TIME(0x42), READ(0, 5, 0x21), TIME(0x43), READ(0, 2, 0xC1), PASS(0, 1),
    READ(0, 2, 0xCC), MCR(0x10), PASS(0, 1), SEND(0x44), PASS(0, 1), TIMES_REFUSED(19, 1),
    MASTER_RESET, MCR(0x10), PASS(0, 2), TALLIES(0, MOST, MOST - 1, 0, 1, 0),
};
/* The same at a full queue, in 16450 mode: no overrun. */
static const struct step held_at_full[] = {
    SET_DIVISOR, WRITE(0, 1, 0x02), BEGIN_AT(MOST - 1), MCR(0x10), SEND(0x41), PASS(0, 1),
    SEND(0x42), PASS(0, 1), READ(0, 2, 0x02), TIMES_REFUSED(19, 2), READ(0, 2, 0x01),
    READ(0, 5, 0x21), TAKE(0x41), TIMES_REFUSED(19, 1), TALLIES(0, MOST, MOST, 0, 0, 0),
};
/* A bench that is saved and read back has its tallies; a restore drops nothing. */
static const struct step saved[] = {
    SET_FIFO, ARRIVALS(0, 0x41, 18), TAKE(0x41), TAKE(0x41), FCR(0x83), ARRIVALS(0, 0x42, 3),
    TALLIES(0, 21, 2, 2, 14, 3), SAVE, ARRIVALS(0, 0x43, 4), TAKE(0x42), READ_BACK,
    TALLIES(0, 21, 2, 2, 14, 3), ARRIVAL(0, 0, 0x44), TALLIES(0, 22, 2, 2, 14, 4),
    SAVE, PUT(0, 0, MOST), PUT(0, 1, 0x80000000U), PUT(0, 2, 0x7FFFFFFAU), PUT(0, 3, 1),
    READ_BACK, TALLIES(0, MOST, 0x80000000U, 0x7FFFFFFAU, 1, 4),
    ARRIVAL_REFUSED_BY(19, 0, 0x45),
};
/* "15 also for tallies that do not add up", in more than 32 bits */
static const struct step not_added_up[] = {
    SET_FIFO, ARRIVALS(0, 0x41, 3), TAKE(0x41), SAVE, PUT(0, 0, 4), READ_BACK_REFUSED,
    TALLIES(0, 3, 1, 0, 0, 2), PUT(0, 0, 2), READ_BACK_REFUSED, PUT(0, 0, 3), PUT(0, 1, 0), READ_BACK_REFUSED,
    PUT(0, 2, 1), READ_BACK, TALLIES(0, 3, 0, 1, 0, 2),
    PUT(0, 2, MOST), PUT(0, 3, 2), READ_BACK_REFUSED,        /* by once 100000000 */
    PUT(0, 1, MOST), PUT(0, 2, MOST), PUT(0, 3, 3), READ_BACK_REFUSED, /* by twice that */
    PUT(0, 1, 0), PUT(0, 2, 0), PUT(0, 3, 1), READ_BACK, TALLIES(0, 3, 0, 0, 1, 2),
    PUT(7, 0, 1), READ_BACK_REFUSED, PUT(7, 2, 1), READ_BACK, TALLIES(7, 1, 0, 1, 0, 0),
};
/* ".. or miscount the queue", all 32 bits of it */
static const struct step miscounted[] = {
    SET_FIFO, ARRIVALS(0, 0x41, 3), TAKE(0x41), SAVE, PUT(0, 1, 0), PUT(0, 4, 3),
    READ_BACK_REFUSED, PUT(0, 1, 2), PUT(0, 4, 1), READ_BACK_REFUSED,
    PUT(0, 0, 259), PUT(0, 1, 1), PUT(0, 4, 258), READ_BACK_REFUSED,
    PUT(0, 0, 0x01000003U), PUT(0, 4, 0x01000002U), READ_BACK_REFUSED,
    PUT(0, 0, 3), PUT(0, 4, 2), READ_BACK, TALLIES(0, 3, 1, 0, 0, 2),
};
/* "version 1 reads with arrived equal to what is queued", and is written as
   version 2; other versions are unknown */
static const struct step older[] = {
    SET_FIFO, SET_DIVISOR_1, ARRIVALS(0, 0x41, 18), TAKE(0x41), ARRIVAL(1, 0, 0x42),
    ARRIVAL(1, 0, 0x43), SAVE, READ_BACK_OF(703, REFUSED_BY(12)),
    READ_BACK_OF(544, REFUSED_BY(12)), PUT_BYTE(3, 3), READ_BACK_OF(704, REFUSED_BY(14)),
    READ_BACK_OF(544, REFUSED_BY(14)), PUT_BYTE(3, 0), READ_BACK_OF(704, REFUSED_BY(14)),
    PUT_BYTE(3, 2), PUT_BYTE(4, 1), READ_BACK_OF(704, REFUSED_BY(14)), PUT_BYTE(4, 0),
    OLDER, READ_BACK_OF(543, REFUSED_BY(12)), TALLIES(0, 18, 1, 2, 0, 15),
    READ_BACK_OF(544, 0x000), TALLIES(0, 15, 0, 0, 0, 15), TALLIES(1, 1, 0, 0, 0, 1),
    TALLIES(2, 0, 0, 0, 0, 0), READ(0, 5, 0x63), SAVE, TAKE(0x41), READ_BACK_OF(704, 0x000),
    TALLIES(0, 15, 0, 0, 0, 15), OLDER, PUT_BYTE(16 + 33, 17), READ_BACK_REFUSED,
    PUT_BYTE(16 + 33, 16), READ_BACK, TALLIES(0, 16, 0, 0, 0, 16),
};

const struct spoon ledger_spoons[LEDGER_SPOONS] = {
    SPOON("ticket 8: arrived and read", arrived_and_read),
    SPOON("ticket 8: lost in FIFO mode", lost_in_fifo),
    SPOON("ticket 8: replaced", replaced),
    SPOON("ticket 8: dropped", dropped),
    SPOON("ticket 8: master reset", reset),
    SPOON("ticket 8: loopback", looped),
    SPOON("ticket 8: tallies asked", asked),
    SPOON("ticket 8: refusal 19", largest),
    SPOON("ticket 8: refusal 19 at a full queue", largest_and_full),
    SPOON("ticket 8: refusal 19 last in order", last_in_order),
    SPOON("ticket 8: refusal 19 of a character time", held),
    SPOON("ticket 8: refusal 19 of a character time at a full queue", held_at_full),
    SPOON("ticket 8: saved benches", saved),
    SPOON("ticket 8: tallies that do not add up", not_added_up),
    SPOON("ticket 8: tallies that miscount the queue", miscounted),
    SPOON("ticket 8: version 1", older),
};
