#include "letter_spoons.h"

/* With eight bits and odd parity, so that each mark may come. */
#define SET_PARITY SET_DIVISOR, WRITE(0, 3, 0x0B)

/* The marks of seat 0's oldest received character in an image. */
#define AT_MARKS (IMAGE_AT_SEATS + SEAT_AT_MARKS)

/* "in 16450 mode the marks it arrived with, even after LSR was read", and "From
   an empty queue: no marks, none behind". The kept marks are others. */
static const struct step letter_16450[] = {
    SET_PARITY, READ(0, 0, LETTER(0, 0, 0)),
    ARRIVAL(0, 3, 0x41), READ(0, 5, 0x6D), READ(0, 5, 0x61),
    READ(0, 0, LETTER(0x41, 3, 0)), READ(0, 0, LETTER(0x41, 0, 0)),
    ARRIVAL(0, 2, 0x42), READ(0, 0, LETTER(0x42, 2, 0)), READ(0, 0, LETTER(0x42, 0, 0)),
    ARRIVAL(0, 0, 0x43), READ(0, 0, LETTER(0x43, 0, 0)), READ(0, 5, 0x68),
};
static const struct step letter_replaces[] = {
    SET_PARITY, ARRIVAL(0, 2, 0x41), ARRIVAL(0, 0, 0x42), READ(0, 0, LETTER(0x42, 0, 0)),
    ARRIVAL(0, 1, 0x43), ARRIVAL(0, 4, 0x00), READ(0, 0, LETTER(0x00, 4, 0)), READ(0, 5, 0x7E),
    ARRIVAL(0, 0, 0x44), ARRIVAL(0, 2, 0x45), READ(0, 5, 0x6B), READ(0, 0, LETTER(0x45, 2, 0)),
};
/* "in FIFO mode marks that an LSR read cleared stay cleared" */
static const struct step letter_fifo[] = {
    SET_FIFO, ARRIVAL(0, 2, 0x41), ARRIVAL(0, 0, 0x42), ARRIVAL(0, 2, 0x43), ARRIVAL(0, 4, 0x00),
    READ(0, 5, 0xE9), READ(0, 0, LETTER(0x41, 0, 3)), READ(0, 0, LETTER(0x42, 0, 2)),
    READ(0, 0, LETTER(0x43, 2, 1)), READ(0, 5, 0xF1), READ(0, 0, LETTER(0x00, 0, 0)),
    READ(0, 5, 0x60), ARRIVAL(0, 2, 0x44), READ(0, 0, LETTER(0x44, 2, 0)),
    READ(0, 0, LETTER(0x44, 0, 0)),
};
static const struct step letter_behind[] = {
    SET_FIFO, ARRIVALS(0, 0x55, 17), READ(0, 0, LETTER(0x55, 0, 15)),
    READ(0, 0, LETTER(0x55, 0, 14)), ARRIVAL(0, 2, 0x56), READ(0, 0, LETTER(0x55, 0, 14)),
};
/* "With LCR bit 7 set, 0 and 1 are DLL and DLM", and a refusal is no letter; but
   a letter is read at divisor 0 too. */
static const struct step letter_divisor[] = {
    SET_FIFO, ARRIVAL(0, 2, 0x41), ARRIVAL(0, 4, 0x00), WRITE(0, 3, 0x83), READ(0, 0, PLAIN(12)),
    WRITE(0, 0, 0), WRITE(0, 3, 0x03), READ(8, 0, REFUSED_BY(1)), READ(0, 8, REFUSED_BY(2)),
    READ(0, 1, PLAIN(0)), READ(0, 7, PLAIN(0)), READ(0, 0, LETTER(0x41, 2, 1)),
};
static const struct step letter_emptied[] = {
    SET_DIVISOR, ARRIVAL(0, 2, 0x41), WRITE(0, 2, 0x06), READ(0, 0, LETTER(0x41, 2, 0)),
    ARRIVAL(0, 2, 0x42), WRITE(0, 2, 0x01), READ(0, 0, LETTER(0x41, 0, 0)),
    ARRIVAL(0, 2, 0x43), WRITE(0, 2, 0xC1), READ(0, 0, LETTER(0x43, 2, 0)),
    ARRIVAL(0, 2, 0x44), WRITE(0, 2, 0x83), READ(0, 0, LETTER(0x43, 0, 0)),
    ARRIVAL(0, 2, 0x45), MASTER_RESET, READ(0, 0, LETTER(0x43, 0, 0)),
};
/* S138: from an image the marks are those that it has, also marks that are not
   kept, a break with data, and parity off. */
static const struct step letter_restored[] = {
    SET_PARITY, ARRIVAL(0, 3, 0x41), READ(0, 5, 0x6D), RESTORE, READ(0, 0, LETTER(0x41, 3, 0)),
    RESTORE, READ(0, 0, LETTER(0x41, 0, 0)),
    ARRIVAL(0, 0, 0x42), RESTORE_WITH(AT_MARKS, 4), READ(0, 5, 0x61),
    READ(0, 0, LETTER(0x42, 4, 0)), WRITE(0, 3, 0x03), WRITE(0, 2, 0x81),
    ARRIVAL(0, 2, 0x43), ARRIVAL(0, 2, 0x44), READ(0, 5, 0xE9), RESTORE,
    READ(0, 0, LETTER(0x43, 0, 1)), RESTORE_WITH(AT_MARKS, 7), READ(0, 0, LETTER(0x44, 7, 0)),
};

const struct spoon letter_spoons[LETTER_SPOONS] = {
    SPOON("ticket 6: marks of a letter in 16450 mode", letter_16450),
    SPOON("ticket 6: marks of a letter that replaced another", letter_replaces),
    SPOON("ticket 6: marks of letters in FIFO mode", letter_fifo),
    SPOON("ticket 6: how many remain behind a letter", letter_behind),
    SPOON("ticket 6: a divisor and a refusal are no letters", letter_divisor),
    SPOON("ticket 6: letters of an emptied queue", letter_emptied),
    SPOON("ticket 6: letters of a bench that was saved", letter_restored),
};
