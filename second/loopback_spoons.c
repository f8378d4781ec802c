#include "loopback_spoons.h"

#define MCR(byte) WRITE(0, 4, byte)
#define MSR(answer) READ(0, 6, answer)
#define SEND(byte) WRITE(0, 0, byte)

/* A character time whose answer is not 100. */
#define TIME(answer) {{4, 0, 0, 0}, 1, answer, ANY}

/* With the output after it. */
#define MCR_OUT(seat, byte, output) {{1, seat, 4, byte}, 1, 0x000, output}
#define MODEM_OUT(seat, levels, output) {{3, seat, 0, levels}, 1, 0x000, output}
#define PASS_OUT(output) {{4, 0, 0, 0}, 1, ANSWER_IDLE, output}

#define ARRIVAL_REFUSED_BY(refusal, marks, data) {{2, 0, marks, data}, 1, REFUSED_BY(refusal), ANY}

/* Seat 0's MCR in an image, and its number of received characters. */
#define AT_MCR (IMAGE_AT_SEATS + SEAT_AT_MCR)
#define AT_RECEIVED (IMAGE_AT_SEATS + SEAT_AT_RECEIVE_COUNT)
#define RESTORE_RECEIVED(count) SAVE, OLDER, PUT_BYTE(AT_RECEIVED, count), READ_BACK
#define RESTORE_REFUSED(at, byte) {{STEP_RESTORE, 0, at, byte}, 1, REFUSED_BY(15), ANY}

/* "DTR, RTS, OUT1 and OUT2 feed DSR, CTS, RI and DCD, with change bits as for
   real inputs". Each MSR is read twice, the second time without change bits. */
static const struct step fed[] = {
    MCR(0x10), MSR(0x00),
    MCR(0x11), MSR(0x22), MSR(0x20), /* DTR to DSR */
    MCR(0x12), MSR(0x13), MSR(0x10), /* RTS to CTS; DSR falls */
    MCR(0x14), MSR(0x41), MSR(0x40), /* OUT1 to RI, which rises; CTS falls */
    MCR(0x18), MSR(0x8C), MSR(0x80), /* OUT2 to DCD; RI falls */
    MCR(0x1F), MSR(0xF3), MSR(0xF0), /* CTS and DSR rise, and RI */
    MCR(0x1F), MSR(0xF0),
    MCR(0x10), MSR(0x0F), MSR(0x00), /* all fall */
};
/* "also where a write of MCR enters or leaves" */
static const struct step entered_and_left[] = {
    MODEM(0, 11), MSR(0xBB), /* CTS, DSR and DCD */
    MCR(0x1F), MSR(0xF0),    /* RI rises */
    MCR(0x0F), MSR(0xB4),    /* RI falls */
    MCR(0x1B), MSR(0xB0), MCR(0x00), MSR(0xB0), /* the same inputs */
    MODEM(0, 4), MSR(0x4B),
    MCR(0x10), MSR(0x04), /* RI falls */
    MCR(0x00), MSR(0x40), /* RI rises */
    MCR(0x13), MCR(0x08), MSR(0x47), /* by the first CTS, DSR and RI; by the second CTS and DSR */
    MCR(0x07), MCR(0x00), MSR(0x40), /* outside */
};
/* "modem levels are only remembered", and checked: CTS as before and fed, so
   that entering sets nothing. */
static const struct step remembered[] = {
    MODEM(0, 1), MSR(0x11), MCR(0x12), MSR(0x10),
    MODEM(0, 14), MSR(0x10), MODEM(0, 10), MSR(0x10), /* RI rises and falls */
    {{3, 0, 0, 16}, 1, REFUSED_BY(7), ANY}, MSR(0x10),
    MCR(0x00), MSR(0xAB), /* CTS falls, DSR and DCD rise */
    MCR(0x13), MODEM(0, 0), MODEM(0, 3), MSR(0x39), /* CTS rises and DCD falls by MCR alone */
    MCR(0x03), MSR(0x30),
};
/* "the character that leaves is received at once .. before the next one moves in;
   the answer is 100" */
static const struct step sent_through[] = {
    SET_FIFO, MCR(0x10), SEND(0x41), SEND(0x42), SEND(0x43),
    PASS(0, 1), READ(0, 5, 0x00), PASS(0, 1), READ(0, 5, 0x01), PASS(0, 1), READ(0, 5, 0x21),
    PASS(0, 1), READ(0, 5, 0x61), PASS(0, 1), READ(0, 5, 0x61),
    READ(0, 0, LETTER(0x41, 0, 2)), READ(0, 0, LETTER(0x42, 0, 1)), READ(0, 0, LETTER(0x43, 0, 0)),
    READ(0, 0, LETTER(0x43, 0, 0)), READ(0, 5, 0x60),
};
/* What moved in outside is received inside, and the other way round it is sent. */
static const struct step on_the_way[] = {
    SET_FIFO, SEND(0x41), SEND(0x42), SEND(0x43), PASS(0, 1), MCR(0x10), PASS(0, 1), MCR(0x00),
    TIME(0x42), READ(0, 0, LETTER(0x41, 0, 0)), READ(0, 5, 0x20), MCR(0x10), PASS(0, 1),
    READ(0, 0, LETTER(0x43, 0, 0)), READ(0, 5, 0x60),
};
/* "cut to the word length": that of the character time, LCR bit 7 set or not. */
static const struct step cut[] = {
    SET_FIFO, MCR(0x10),
    WRITE(0, 3, 0x00), SEND(0xFF), PASS(0, 2), READ(0, 0, LETTER(0x1F, 0, 0)),
    WRITE(0, 3, 0x01), SEND(0xFF), PASS(0, 2), READ(0, 0, LETTER(0x3F, 0, 0)),
    WRITE(0, 3, 0x02), SEND(0xFF), PASS(0, 2), READ(0, 0, LETTER(0x7F, 0, 0)),
    WRITE(0, 3, 0x03), SEND(0xFF), PASS(0, 2), READ(0, 0, LETTER(0xFF, 0, 0)),
    SEND(0xE5), PASS(0, 1), WRITE(0, 3, 0x00), PASS(0, 1), WRITE(0, 3, 0x03),
    READ(0, 0, LETTER(0x05, 0, 0)),
    SEND(0x99), PASS(0, 1), WRITE(0, 3, 0x83), PASS(0, 1), READ(0, 0, PLAIN(12)),
    WRITE(0, 3, 0x03), READ(0, 0, LETTER(0x99, 0, 0)),
};
/* "without marks", "the answer is 100, even with break set": LCR 4B has odd
   parity and break. */
static const struct step break_set[] = {
    SET_FIFO, MCR(0x10), WRITE(0, 3, 0x4B), SEND(0x41), PASS(0, 2), READ(0, 5, 0x61),
    READ(0, 0, LETTER(0x41, 0, 0)), PASS(0, 1), READ(0, 5, 0x60),
    WRITE(0, 2, 0x00), SEND(0x42), PASS(0, 2), READ(0, 5, 0x61), READ(0, 0, LETTER(0x42, 0, 0)),
    MCR(0x00), TIME(0x200),
};
/* "arrivals .. are checked as before, but an arrival changes nothing": not the
   time-out count of 3 either, which the fourth time makes 4. */
static const struct step from_outside[] = {
    SET_FIFO, WRITE(0, 1, 0x01), ARRIVAL(0, 0, 0x41), PASS(0, 3), MCR(0x10),
    ARRIVAL(0, 2, 0x42), READ(0, 2, 0xC1), READ(0, 5, 0x61), PASS(0, 1), READ(0, 2, 0xCC),
    READ(0, 0, LETTER(0x41, 0, 0)), WRITE(0, 3, 0x00),
    ARRIVAL_REFUSED_BY(6, 8, 0), ARRIVAL_REFUSED_BY(16, 1, 0x20), ARRIVAL_REFUSED_BY(17, 5, 1),
    ARRIVAL_REFUSED_BY(18, 4, 1), READ(0, 5, 0x60),
    /* A full queue, in 16450 mode */
    MCR(0x00), WRITE(0, 2, 0x00), ARRIVAL(0, 0, 0x11), MCR(0x10), ARRIVAL(0, 2, 0x12),
    ARRIVAL(0, 4, 0x00), READ(0, 5, 0x61), READ(0, 0, LETTER(0x11, 0, 0)), READ(0, 5, 0x60),
    /* Divisor 0 */
    SEND(0x13), WRITE(0, 3, 0x83), WRITE(0, 0, 0), WRITE(0, 3, 0x03),
    ARRIVAL_REFUSED_BY(5, 8, 0), TIME(REFUSED_BY(5)), READ(0, 5, 0x00), MCR(0x11), MSR(0x22),
};
static const struct step idle[] = {
    SET_FIFO, MCR(0x10), PASS(0, 5), READ(0, 5, 0x60), READ(0, 0, LETTER(0, 0, 0)),
    WRITE(0, 3, 0x43), PASS(0, 5), READ(0, 5, 0x60), READ(0, 0, LETTER(0, 0, 0)),
};
/* A full queue is an overrun; the marks that are kept are not the character's. */
static const struct step overrun[] = {
    SET_DIVISOR, ARRIVAL(0, 2, 0x40), MCR(0x10), SEND(0x41), PASS(0, 1), SEND(0x42), PASS(0, 1),
    READ(0, 5, 0x2B), READ(0, 5, 0x21), PASS(0, 1), READ(0, 5, 0x63),
    READ(0, 0, LETTER(0x42, 0, 0)), READ(0, 5, 0x60),
    MCR(0x00), WRITE(0, 2, 0x81), ARRIVALS(0, 0x55, 16), MCR(0x10), SEND(0x41), PASS(0, 1),
    READ(0, 5, 0x21), PASS(0, 1), READ(0, 5, 0x63), READ(0, 0, LETTER(0x55, 0, 15)),
    SEND(0x43), PASS(0, 2), READ(0, 5, 0x61), READ(0, 0, LETTER(0x55, 0, 15)),
};
/* Ticket 5 and document 01's order: a smaller count becomes 0 by the reception
   and rises to 1 in the same event, from an empty queue too; 4 stays. */
static const struct step counted[] = {
    SET_FIFO, WRITE(0, 1, 0x01), MCR(0x10), SEND(0x40), PASS(0, 2), /* 1 */
    PASS(0, 2), READ(0, 2, 0xC1), PASS(0, 1), READ(0, 2, 0xCC),
    SEND(0x41), PASS(0, 2), READ(0, 2, 0xCC), /* 4 stays */
    READ(0, 0, LETTER(0x40, 0, 1)), READ(0, 2, 0xC1), PASS(0, 2), SEND(0x42), PASS(0, 1), /* 3 */
    PASS(0, 1), READ(0, 2, 0xC1), /* received: 1 */
    PASS(0, 2), READ(0, 2, 0xC1), PASS(0, 1), READ(0, 2, 0xCC),
};
/* The same of one that is lost. A full FIFO has reached every trigger, so the
   count is shown by an image whose last three characters, all 0, are left out; by
   one of version 1, which has no tallies to miscount them. */
static const struct step counted_lost[] = {
    SET_DIVISOR, WRITE(0, 2, 0xC1), WRITE(0, 1, 0x01), ARRIVALS(0, 0x55, 13),
    ARRIVALS(0, 0, 3), MCR(0x10), SEND(0x41), PASS(0, 2), READ(0, 5, 0x63), /* 1 */
    RESTORE_RECEIVED(13), PASS(0, 2), READ(0, 2, 0xC1), PASS(0, 1), READ(0, 2, 0xCC),
    MCR(0x00), ARRIVALS(0, 0, 3), MCR(0x10), SEND(0x42), PASS(0, 2), READ(0, 5, 0x63), /* 4 */
    RESTORE_RECEIVED(13), READ(0, 2, 0xCC),
};
/* "(a master reset sets none)" */
static const struct step reset[] = {
    MODEM(0, 6), MSR(0x62), MCR(0x1B), MASTER_RESET, READ(0, 4, 0x00), MSR(0x60),
    MCR(0x10), MSR(0x06), MASTER_RESET, MSR(0x60), MODEM(0, 6), MSR(0x60),
};
/* "MCR bit 3 keeps gating the line." */
static const struct step gated[] = {
    SET_BASE, WRITE(3, 1, 0x08), MCR_OUT(3, 0x10, 0), MCR_OUT(3, 0x11, 0), READ(3, 2, 0x00),
    MCR_OUT(3, 0x19, 1), ACKNOWLEDGE(0x043, 0), PORT_WRITE(0, 0x20),
    MCR_OUT(3, 0x11, 0), READ(3, 2, 0x00), READ(3, 6, 0x2A), READ(3, 2, 0x01),
    MCR_OUT(3, 0x19, 1), READ(3, 6, 0xA8), MODEM_OUT(3, 15, 0), MODEM_OUT(3, 0, 0),
    MCR_OUT(3, 0x1D, 0), MCR_OUT(3, 0x19, 1), READ(3, 6, 0xA4),
    /* By what is received */
    SET_DIVISOR, WRITE(0, 1, 0x01), MCR_OUT(0, 0x18, 0), SEND(0x41), PASS_OUT(0), PASS_OUT(1),
    ACKNOWLEDGE(0x040, 0), READ(0, 2, 0x04), READ(0, 0, LETTER(0x41, 0, 0)),
};
/* "A saved MCR may now be up to 1F." The bench before, or the levels, make no
   change bits. */
static const struct step saved[] = {
    SET_FIFO, MODEM(0, 2), MCR(0x15), SEND(0x41), PASS(0, 1), RESTORE, READ(0, 4, 0x15),
    MSR(0x62), PASS(0, 1), READ(0, 0, LETTER(0x41, 0, 0)), MCR(0x00), MSR(0x24),
    RESTORE_WITH(AT_MCR, 0x1F), READ(0, 4, 0x1F), MSR(0xF0),
    RESTORE_REFUSED(AT_MCR, 0x20), READ(0, 4, 0x1F),
    RESTORE_WITH(AT_MCR, 0x00), MSR(0x20),
};
/* "9 is no longer given for MCR", and goes on for the controller. */
static const struct step not_served[] = {
    WRITE(7, 4, 0xFF), READ(7, 4, 0x1F), {{1, 8, 4, 0x10}, 1, REFUSED_BY(1), ANY},
    {{1, 0, 8, 0x10}, 1, REFUSED_BY(2), ANY}, WRITE(0, 3, 0x80), MCR(0xF0),
    READ(0, 4, 0x10), {{7, 0, 0, 0x10}, 1, REFUSED_BY(9), ANY}, PORT_WRITE(0, 0x13),
    PORT_WRITE(1, 0x40), {{7, 0, 1, 0x00}, 1, REFUSED_BY(9), ANY}, PORT_WRITE(1, 0x01),
    {{7, 0, 0, 0x0C}, 1, REFUSED_BY(9), ANY},
};

const struct spoon loopback_spoons[LOOPBACK_SPOONS] = {
    SPOON("ticket 7: what MCR feeds", fed),
    SPOON("ticket 7: change bits of entering and leaving", entered_and_left),
    SPOON("ticket 7: modem levels remembered", remembered),
    SPOON("ticket 7: characters sent through", sent_through),
    SPOON("ticket 7: characters on the way", on_the_way),
    SPOON("ticket 7: characters cut", cut),
    SPOON("ticket 7: break set", break_set),
    SPOON("ticket 7: arrivals from outside", from_outside),
    SPOON("ticket 7: idle", idle),
    SPOON("ticket 7: overrun", overrun),
    SPOON("ticket 7: time-out count", counted),
    SPOON("ticket 7: time-out count of one that is lost", counted_lost),
    SPOON("ticket 7: master reset", reset),
    SPOON("ticket 7: MCR bit 3", gated),
    SPOON("ticket 7: saved benches", saved),
    SPOON("ticket 7: refusal 9", not_served),
};
