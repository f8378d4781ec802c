#ifndef STEPS_H
#define STEPS_H

#include <stddef.h>

#include "bench.h"
#include "image_layout.h"

/* The steps that a spoon is made of, and the words they are written by.

   A step is an event, how often it is given, its answer and the output after
   it; or a question for a line's place in turn or for a tally of a seat; or the
   bench is saved and read back, with one byte of its image replaced. The image may
   also be saved, changed and read back by steps of their own. ANY stands for an answer or output
   that document 01 does not name, REFUSED_BY(n) for refusal n with its FFF,
   LETTER for a byte with its marks and how many remain behind it, and PLAIN for
   a byte that is no letter. A bare answer does not ask whether it is one. */
#define ANY 0x8000U
#define REFUSED_BY(refusal) (0xF000U + (refusal))
#define LETTER(byte, marks, behind) (0x100000U + (marks) * 0x1000U + (behind) * 0x100U + (byte))
#define PLAIN(byte) (0x200000U + (byte))
#define STEP_PLACE 0x10U
#define STEP_RESTORE 0x11U
#define STEP_TALLY 0x12U
#define STEP_SAVE 0x13U
#define STEP_PUT 0x14U
#define STEP_PUT_BYTE 0x15U
#define STEP_OLDER 0x16U
#define STEP_READ_BACK 0x17U

struct step {
    struct event event;
    unsigned times;
    unsigned answer;
    unsigned output;
};

#define READ(seat, number, answer) {{0, seat, number, 0}, 1, answer, ANY}
#define WRITE(seat, number, byte) {{1, seat, number, byte}, 1, 0x000, ANY}
#define ARRIVAL(seat, marks, data) {{2, seat, marks, data}, 1, 0x000, ANY}
#define ARRIVALS(seat, data, times) {{2, seat, 0, data}, times, 0x000, ANY}
#define ARRIVAL_REFUSED(seat) {{2, seat, 8, 0}, 1, REFUSED_BY(6), ANY}
#define MODEM(seat, levels) {{3, seat, 0, levels}, 1, 0x000, ANY}
#define PASS(seat, times) {{4, seat, 0, 0}, times, ANSWER_IDLE, ANY}
#define MASTER_RESET {{5, 0, 0, 0}, 1, 0x000, ANY}
#define PORT_READ(port, answer) {{6, 0, port, 0}, 1, answer, ANY}
#define PORT_WRITE(port, byte) {{7, 0, port, byte}, 1, 0x000, ANY}
#define PORT_WRITE_OUT(port, byte, output) {{7, 0, port, byte}, 1, 0x000, output}
#define ACKNOWLEDGE(answer, output) {{8, 0, 0, 0}, 1, answer, output}
#define PLACE_OF(line, place) {{STEP_PLACE, 0, line, 0}, 1, place, ANY}
#define RESTORE_WITH(at, byte) {{STEP_RESTORE, 0, at, byte}, 1, 0x000, ANY}
#define RESTORE RESTORE_WITH(IMAGE_AT_VERSION, IMAGE_VERSION)

/* The five of ticket 8 are these; a seat has none. */
#define TALLY_IS(seat, figure, value) {{STEP_TALLY, seat, figure, value}, 1, 0x000, ANY}
#define TALLIES(seat, arrived, read, lost, dropped, queued) \
    TALLY_IS(seat, 0, arrived), TALLY_IS(seat, 1, read), TALLY_IS(seat, 2, lost), \
    TALLY_IS(seat, 3, dropped), TALLY_IS(seat, 4, queued)
#define TALLIES_REFUSED(seat) {{STEP_TALLY, seat, 0, 0}, 1, REFUSED_BY(1), ANY}

/* The bench is saved, and what is saved changes: a tally of a seat, a byte, or all
   of it becomes version 1. It is read back from so many bytes. */
#define SAVE {{STEP_SAVE, 0, 0, 0}, 1, 0x000, ANY}
#define PUT(seat, figure, value) {{STEP_PUT, seat, figure, value}, 1, 0x000, ANY}
#define PUT_BYTE(at, byte) {{STEP_PUT_BYTE, 0, at, byte}, 1, 0x000, ANY}
#define OLDER {{STEP_OLDER, 0, 0, 0}, 1, 0x000, ANY}
#define READ_BACK_OF(bytes, answer) {{STEP_READ_BACK, 0, bytes, 0}, 1, answer, ANY}
#define READ_BACK READ_BACK_OF(IMAGE_BYTES, 0x000)
#define READ_BACK_REFUSED READ_BACK_OF(IMAGE_BYTES, REFUSED_BY(15))

/* "Cases 2 to 7 first set divisor 12 and LCR 03, cases 3 to 5 FCR 81" */
#define SET_DIVISOR WRITE(0, 3, 0x83), WRITE(0, 0, 12), WRITE(0, 1, 0), WRITE(0, 3, 0x03)
#define SET_FIFO SET_DIVISOR, WRITE(0, 2, 0x81)
/* "9 to 12 use base 40, edge mode without automatic end" */
#define SET_BASE PORT_WRITE(0, 0x13), PORT_WRITE(1, 0x40), PORT_WRITE(1, 0x01)
/* A line rises by a real event: a changed CTS with its cause enabled. */
#define RISE(seat) WRITE(seat, 4, 0x08), WRITE(seat, 1, 0x08), MODEM(seat, 1)

struct spoon {
    const char *name;
    const struct step *steps;
    size_t count;
};

#define SPOON(name, steps) {name, steps, sizeof steps / sizeof steps[0]}

#endif
