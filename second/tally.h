#ifndef TALLY_H
#define TALLY_H

#include <stdbool.h>
#include <stdint.h>

#include "bench.h"
#include "ledger_items.h"
#include "loopback_items.h"
#include "watch.h"

/* What the trial streams are to reach, each with the words it is printed by. */
#define TALLY_ITEMS(ITEM) \
    ITEM(KIND_0, "kind 0 accepted") ITEM(KIND_1, "kind 1 accepted") \
    ITEM(KIND_2, "kind 2 accepted") ITEM(KIND_3, "kind 3 accepted") \
    ITEM(KIND_4, "kind 4 accepted") ITEM(KIND_5, "kind 5 accepted") \
    ITEM(KIND_6, "kind 6 accepted") ITEM(KIND_7, "kind 7 accepted") \
    ITEM(KIND_8, "kind 8 accepted") \
    ITEM(REFUSED_1, "refusal 1") \
    ITEM(REFUSED_2_REGISTER, "refusal 2, register") ITEM(REFUSED_2_PORT, "refusal 2, port") \
    ITEM(REFUSED_3, "refusal 3") \
    ITEM(REFUSED_5_ARRIVAL, "refusal 5, arrival") \
    ITEM(REFUSED_5_TIME, "refusal 5, character time") \
    ITEM(REFUSED_5_6, "refusal 5 where 6 holds too") \
    ITEM(REFUSED_5_16, "refusal 5 where 16 holds too") \
    ITEM(REFUSED_5_17, "refusal 5 where 17 holds too") \
    ITEM(REFUSED_5_18, "refusal 5 where 18 holds too") \
    ITEM(REFUSED_6, "refusal 6 alone") \
    ITEM(REFUSED_6_16, "refusal 6 where 16 holds too") \
    ITEM(REFUSED_6_17, "refusal 6 where 17 holds too") \
    ITEM(REFUSED_6_18, "refusal 6 where 18 holds too") \
    ITEM(REFUSED_6_16_17, "refusal 6 where 16 and 17 hold too") \
    ITEM(REFUSED_6_16_18, "refusal 6 where 16 and 18 hold too") \
    ITEM(REFUSED_6_17_18, "refusal 6 where 17 and 18 hold too") \
    ITEM(REFUSED_6_16_17_18, "refusal 6 where 16, 17 and 18 hold too") \
    ITEM(REFUSED_16, "refusal 16 alone") \
    ITEM(REFUSED_16_17, "refusal 16 where 17 holds too") \
    ITEM(REFUSED_16_18, "refusal 16 where 18 holds too") \
    ITEM(REFUSED_16_17_18, "refusal 16 where 17 and 18 hold too") \
    ITEM(REFUSED_17, "refusal 17 alone") \
    ITEM(REFUSED_17_18, "refusal 17 where 18 holds too") \
    ITEM(REFUSED_18, "refusal 18 alone") \
    ITEM(PARITY_000, "parity mark refused by 17 at LCR bits 5-3 000") \
    ITEM(PARITY_010, "parity mark refused by 17 at LCR bits 5-3 010") \
    ITEM(PARITY_100, "parity mark refused by 17 at LCR bits 5-3 100") \
    ITEM(PARITY_110, "parity mark refused by 17 at LCR bits 5-3 110") \
    ITEM(REFUSED_7, "refusal 7") \
    ITEM(REFUSED_8_READ, "refusal 8, read") \
    ITEM(REFUSED_8_ACKNOWLEDGE, "refusal 8, acknowledge") \
    ITEM(REFUSED_8_PORT_0, "refusal 8, port 0 write") \
    ITEM(REFUSED_8_PORT_1, "refusal 8, port 1 write before any ICW1") \
    ITEM(REFUSED_9_ICW1, "refusal 9, ICW1") ITEM(REFUSED_9_ICW4, "refusal 9, ICW4") \
    ITEM(REFUSED_9_OCW3, "refusal 9, OCW3") \
    ITEM(IIR_06, "IIR 06") ITEM(IIR_04, "IIR 04") ITEM(IIR_02, "IIR 02") \
    ITEM(IIR_00, "IIR 00") ITEM(IIR_01, "IIR 01") \
    ITEM(IIR_C6, "IIR C6") ITEM(IIR_C4, "IIR C4") ITEM(IIR_CC, "IIR CC") \
    ITEM(IIR_C2, "IIR C2") ITEM(IIR_C0, "IIR C0") ITEM(IIR_C1, "IIR C1") \
    ITEM(TRIGGER_1, "trigger 1 named") ITEM(TRIGGER_4, "trigger 4 named") \
    ITEM(TRIGGER_8, "trigger 8 named") ITEM(TRIGGER_14, "trigger 14 named") \
    ITEM(TRIGGER_OVER_TIMEOUT, "trigger named over a time-out") \
    ITEM(LSR_16450_OVERRUN, "LSR 16450 overrun") ITEM(LSR_16450_PARITY, "LSR 16450 parity") \
    ITEM(LSR_16450_FRAMING, "LSR 16450 framing") ITEM(LSR_16450_BREAK, "LSR 16450 break") \
    ITEM(LSR_16450_KEPT, "LSR 16450 mark kept with an empty queue") \
    ITEM(LSR_FIFO_OVERRUN, "LSR FIFO overrun") ITEM(LSR_FIFO_PARITY, "LSR FIFO parity") \
    ITEM(LSR_FIFO_FRAMING, "LSR FIFO framing") ITEM(LSR_FIFO_BREAK, "LSR FIFO break") \
    ITEM(LSR_FIFO_MIDDLE, "LSR FIFO bit 7 with the oldest unmarked") \
    ITEM(LSR_FIFO_BOTH, "LSR FIFO oldest marked and another behind it") \
    ITEM(RBR_16450, "RBR 16450 taken") ITEM(RBR_FIFO, "RBR FIFO taken") \
    ITEM(RBR_EMPTY, "RBR from an empty queue") \
    ITEM(LETTER_16450_0, "letter 16450 marks 0") ITEM(LETTER_16450_1, "letter 16450 marks 1") \
    ITEM(LETTER_16450_2, "letter 16450 marks 2") ITEM(LETTER_16450_3, "letter 16450 marks 3") \
    ITEM(LETTER_16450_4, "letter 16450 marks 4") ITEM(LETTER_16450_5, "letter 16450 marks 5") \
    ITEM(LETTER_16450_6, "letter 16450 marks 6") ITEM(LETTER_16450_7, "letter 16450 marks 7") \
    ITEM(LETTER_FIFO_0, "letter FIFO marks 0") ITEM(LETTER_FIFO_1, "letter FIFO marks 1") \
    ITEM(LETTER_FIFO_2, "letter FIFO marks 2") ITEM(LETTER_FIFO_3, "letter FIFO marks 3") \
    ITEM(LETTER_FIFO_4, "letter FIFO marks 4") ITEM(LETTER_FIFO_5, "letter FIFO marks 5") \
    ITEM(LETTER_FIFO_6, "letter FIFO marks 6") ITEM(LETTER_FIFO_7, "letter FIFO marks 7") \
    ITEM(BEHIND_0, "letter FIFO 0 behind") ITEM(BEHIND_1, "letter FIFO 1 behind") \
    ITEM(BEHIND_2, "letter FIFO 2 behind") ITEM(BEHIND_3, "letter FIFO 3 behind") \
    ITEM(BEHIND_4, "letter FIFO 4 behind") ITEM(BEHIND_5, "letter FIFO 5 behind") \
    ITEM(BEHIND_6, "letter FIFO 6 behind") ITEM(BEHIND_7, "letter FIFO 7 behind") \
    ITEM(BEHIND_8, "letter FIFO 8 behind") ITEM(BEHIND_9, "letter FIFO 9 behind") \
    ITEM(BEHIND_10, "letter FIFO 10 behind") ITEM(BEHIND_11, "letter FIFO 11 behind") \
    ITEM(BEHIND_12, "letter FIFO 12 behind") ITEM(BEHIND_13, "letter FIFO 13 behind") \
    ITEM(BEHIND_14, "letter FIFO 14 behind") ITEM(BEHIND_15, "letter FIFO 15 behind") \
    ITEM(BEHIND_LOST, "letter FIFO 15 behind after an arrival was lost") \
    ITEM(LETTER_AFTER_LSR, "letter 16450 with a mark that an LSR read has cleared in LSR") \
    ITEM(LETTER_KEPT_MORE, "letter 16450 marked while another mark is kept") \
    ITEM(LETTER_KEPT_ALONE, "letter 16450 unmarked while a mark is kept") \
    ITEM(LETTER_FOR_MARKED, "letter 16450 unmarked that replaced a marked one") \
    ITEM(LETTER_FOR_UNMARKED, "letter 16450 marked that replaced an unmarked one") \
    ITEM(LETTER_FOR_OTHER, "letter 16450 marked that replaced one with other marks") \
    ITEM(LETTER_CLEARED, "letter FIFO whose marks an LSR read has cleared") \
    ITEM(LETTER_CLEARED_FIRST, "letter FIFO with cleared marks and a marked one behind") \
    ITEM(LETTER_SPARED, "letter FIFO marked that was behind another at an LSR read") \
    ITEM(LETTER_UNMARKED_FIRST, "letter FIFO unmarked with a marked one behind") \
    ITEM(LETTER_PARITY_OFF, "letter with a parity mark whose parity is off by now") \
    ITEM(LETTER_DIVISOR_0, "letter at divisor 0") \
    ITEM(EMPTY_BYTE, "letter of an empty queue with a last byte not 0") \
    ITEM(EMPTY_KEPT, "letter of an empty queue while a mark is kept") \
    ITEM(EMPTY_16450, "letter of an empty queue after a marked one in 16450 mode") \
    ITEM(EMPTY_FIFO, "letter of an empty queue after a marked one in FIFO mode") \
    ITEM(EMPTY_BY_FCR, "letter of a queue that FCR emptied of a marked one") \
    ITEM(EMPTY_BY_RESET, "letter of a queue that a master reset emptied of a marked one") \
    ITEM(DLL_MARKED, "DLL read with the oldest character marked") \
    ITEM(DLL_BEHIND, "DLL read with several characters queued") \
    ITEM(LETTER_REFUSED, "read of register 0 refused") \
    ITEM(MSR_CHANGED, "MSR with a change bit") \
    ITEM(DIVISOR_READ, "DLL or DLM read") ITEM(DIVISOR_WRITE, "DLL or DLM write") \
    ITEM(DIVISOR_1, "arrival or character time at divisor 1") \
    ITEM(ARRIVAL_REPLACES, "arrival replaces in 16450 mode") \
    ITEM(ARRIVAL_LOST, "arrival lost in FIFO mode") \
    ITEM(ARRIVAL_SIXTEENTH, "arrival fills sixteen places") \
    ITEM(WORD_5, "arrival at five bits") ITEM(WORD_6, "arrival at six bits") \
    ITEM(WORD_7, "arrival at seven bits") ITEM(WORD_8, "arrival at eight bits") \
    ITEM(EDGE_1F, "1F arrives at five bits") ITEM(EDGE_3F, "3F arrives at six bits") \
    ITEM(EDGE_7F, "7F arrives at seven bits") ITEM(EDGE_FF, "FF arrives at eight bits") \
    ITEM(EDGE_20, "20 refused by 16 at five bits") ITEM(EDGE_40, "40 refused by 16 at six bits") \
    ITEM(EDGE_80, "80 refused by 16 at seven bits") \
    ITEM(EDGE_MARKS_7, "marks 7 accepted") ITEM(EDGE_MARKS_8, "marks 8 refused by 6") \
    ITEM(PARITY_001, "parity mark accepted at LCR bits 5-3 001") \
    ITEM(PARITY_011, "parity mark accepted at LCR bits 5-3 011") \
    ITEM(PARITY_101, "parity mark accepted at LCR bits 5-3 101") \
    ITEM(PARITY_111, "parity mark accepted at LCR bits 5-3 111") \
    ITEM(EDGE_BREAK_0, "break with data 0 accepted") \
    ITEM(EDGE_BREAK_1, "break with data 1 refused by 18") \
    ITEM(THR_REPLACES, "THR write replaces in 16450 mode") \
    ITEM(THR_DROPPED, "THR write dropped in FIFO mode") \
    ITEM(SENT, "byte sent") ITEM(SENT_CUT, "byte sent is cut") \
    ITEM(SENT_IDLE, "idle") ITEM(SENT_BREAK, "break with an idle shift register") \
    ITEM(SENT_BREAK_FULL, "break while a character leaves") \
    ITEM(TIMEOUT_4, "time-out count becomes 4") \
    ITEM(ROOM_AT_0, "arrival with room at time-out count 0") \
    ITEM(ROOM_AT_1, "arrival with room at time-out count 1") \
    ITEM(ROOM_AT_2, "arrival with room at time-out count 2") \
    ITEM(ROOM_AT_3, "arrival with room at time-out count 3") \
    ITEM(ROOM_AT_4, "arrival with room at time-out count 4") \
    ITEM(LOST_AT_0, "arrival lost at time-out count 0") \
    ITEM(LOST_AT_1, "arrival lost at time-out count 1") \
    ITEM(LOST_AT_2, "arrival lost at time-out count 2") \
    ITEM(LOST_AT_3, "arrival lost at time-out count 3") \
    ITEM(LOST_AT_4, "arrival lost at time-out count 4") \
    ITEM(REFUSED_AT_1, "arrival refused at time-out count 1") \
    ITEM(REFUSED_AT_2, "arrival refused at time-out count 2") \
    ITEM(REFUSED_AT_3, "arrival refused at time-out count 3") \
    ITEM(REFUSED_AT_4, "arrival refused at time-out count 4") \
    ITEM(TIMEOUT_DISABLED, "arrival at a time-out with IER bit 0 clear") \
    ITEM(TIMEOUT_STAYS, "arrival leaves a time-out named") \
    ITEM(TIMEOUT_LINE_EDGE, "arrival leaves a line high by a time-out in edge mode") \
    ITEM(TIMEOUT_LINE_LEVEL, "arrival leaves a line high by a time-out in level mode") \
    ITEM(TIMEOUT_TO_TRIGGER, "arrival at a named time-out reaches the trigger") \
    ITEM(LEFT_CC, "IIR CC of a time-out that an arrival left") \
    ITEM(LEFT_C4, "IIR C4 over a time-out that an arrival left") \
    ITEM(LEFT_LSR, "LSR read at a time-out that an arrival left") \
    ITEM(LEFT_RBR, "RBR read clears a time-out that an arrival left") \
    ITEM(LEFT_IER, "IER write names a time-out that an arrival left") \
    ITEM(LEFT_TRIGGER, "FCR write with a higher trigger names a time-out that an arrival left") \
    ITEM(LEFT_EMPTIED, "FCR write empties the queue at a time-out that an arrival left") \
    ITEM(LEFT_ARRIVAL, "arrival at a time-out that an arrival left") \
    ITEM(LEFT_TIME, "character time at a time-out that an arrival left") \
    ITEM(FCR_TO_FIFO, "to FIFO mode with a queue not empty") \
    ITEM(FCR_TO_16450, "to 16450 mode with a queue not empty") \
    ITEM(FCR_RECEIVE, "FCR bit 1 empties a receive queue") \
    ITEM(FCR_TRANSMIT, "FCR bit 2 empties a transmit queue") \
    ITEM(FCR_IGNORED, "FCR bits 1, 2 ignored in 16450 mode with a queue not empty") \
    ITEM(IER_FLAG, "IER write sets the holding-empty flag") \
    ITEM(IER_NO_FLAG, "IER bit 1 turned on with a transmit queue not empty") \
    ITEM(RI_RISE, "RI becomes active") ITEM(RI_FALL, "RI becomes inactive") \
    ITEM(EDGE_SEAT_7, "seat 7 accepted") ITEM(EDGE_SEAT_8, "seat 8 refused") \
    ITEM(EDGE_REGISTER_7, "register 7 accepted") ITEM(EDGE_REGISTER_8, "register 8 refused") \
    ITEM(EDGE_PORT_1, "port 1 accepted") ITEM(EDGE_PORT_2, "port 2 refused") \
    ITEM(EDGE_LEVELS_15, "levels 15 accepted") ITEM(EDGE_LEVELS_16, "levels 16 refused") \
    ITEM(RESET_HIGH, "master reset with a line high") \
    ITEM(OCW2_000, "OCW2 000") ITEM(OCW2_001, "OCW2 001") ITEM(OCW2_010, "OCW2 010") \
    ITEM(OCW2_011, "OCW2 011") ITEM(OCW2_100, "OCW2 100") ITEM(OCW2_101, "OCW2 101") \
    ITEM(OCW2_110, "OCW2 110") ITEM(OCW2_111, "OCW2 111") \
    ITEM(END_TAKES, "plain end takes a line") ITEM(END_NOTHING, "plain end with nothing to take") \
    ITEM(END_ROTATES, "rotating plain end takes a line") \
    ITEM(END_ROTATES_NOTHING, "rotating plain end with nothing to take") \
    ITEM(END_SKIPS, "plain end passes over a masked line in service") \
    ITEM(END_ALL_MASKED, "plain end with only masked lines in service") \
    ITEM(END_L_IDLE, "111 with L not in service") \
    ITEM(END_L_SERVED, "011 or 111 with L in service") \
    ITEM(GRANT_EDGE, "grant in edge mode") ITEM(GRANT_LEVEL, "grant in level mode") \
    ITEM(GRANT_NESTED, "grant above a line in service") \
    ITEM(GRANT_AUTOMATIC, "grant with automatic end, no rotation") \
    ITEM(GRANT_ROTATING, "grant with automatic end and rotation") \
    ITEM(GRANT_ROTATION_UNUSED, "grant with rotation on but no automatic end") \
    ITEM(GRANT_UNHINDERED, "grant past a masked line in service") \
    ITEM(SPURIOUS, "spurious, nothing unmasked stands") \
    ITEM(SPURIOUS_HINDERED, "spurious, a line in service hinders") \
    ITEM(SPURIOUS_SPECIAL, "spurious, an unmasked line hinders in special mask mode") \
    ITEM(ICW1_INTERRUPTS_2, "ICW1 where ICW2 was next") \
    ITEM(ICW1_INTERRUPTS_4, "ICW1 where ICW4 was next") \
    ITEM(ICW1_LINES_HIGH, "ICW1 to edge mode with a line high") \
    ITEM(ICW4_READY, "ICW4 makes ready") \
    ITEM(ICW4_OUTPUT_EDGE, "ICW4 raises the output in edge mode") \
    ITEM(ICW4_OUTPUT_LEVEL, "ICW4 raises the output in level mode") \
    ITEM(SPECIAL_ON, "OCW3 special mask on") ITEM(SPECIAL_OFF, "OCW3 special mask off") \
    ITEM(SELECT_REQUESTS, "OCW3 selects requests") ITEM(SELECT_SERVICE, "OCW3 selects in-service") \
    ITEM(READ_LATCHES, "requests read in edge mode, not 0") \
    ITEM(READ_LINES, "requests read in level mode, not 0") \
    ITEM(READ_SERVICE, "in-service read, not 0") ITEM(READ_MASK, "mask read, not 0") \
    ITEM(FALL_CLEARS, "a fall clears a latch") \
    ITEM(RISE_BEFORE_ICW1, "a rise before any ICW1") \
    ITEM(RISE_BEFORE_ICW2, "a rise between ICW1 and ICW2") \
    ITEM(RISE_BEFORE_ICW4, "a rise between ICW2 and ICW4") \
    ITEM(LAST_0, "line 0 becomes last-ranked") ITEM(LAST_1, "line 1 becomes last-ranked") \
    ITEM(LAST_2, "line 2 becomes last-ranked") ITEM(LAST_3, "line 3 becomes last-ranked") \
    ITEM(LAST_4, "line 4 becomes last-ranked") ITEM(LAST_5, "line 5 becomes last-ranked") \
    ITEM(LAST_6, "line 6 becomes last-ranked") ITEM(LAST_7, "line 7 becomes last-ranked") \
    LOOPBACK_ITEMS(ITEM) \
    LEDGER_ITEMS(ITEM)

#define TALLY_NAME(name, words) TALLY_##name,
enum tally_item { TALLY_ITEMS(TALLY_NAME) TALLY_COUNT };
#undef TALLY_NAME

struct tally {
    uint64_t events;
    uint64_t accepted;
    uint64_t reached[TALLY_COUNT];
    bool left[SEATS]; /* the seat's time-out stood at an arrival and stands since */
    struct watches watches;
    bool given[SEATS];        /* levels were given inside since the seat's last MCR write */
    bool moved_inside[SEATS]; /* the seat's last character time was inside */
};

void tally_if(struct tally *tally, bool reached, enum tally_item item);

/* The item that stands `further` places behind another in the list. */
enum tally_item tally_behind(enum tally_item item, unsigned further);

void tally_refusal(struct tally *tally, const struct moment *moment);
void tally_seat(struct tally *tally, const struct moment *moment);
void tally_timeout(struct tally *tally, const struct moment *moment);
void tally_letter(struct tally *tally, const struct moment *moment);
void tally_loopback(struct tally *tally, const struct moment *moment);
void tally_ledger(struct tally *tally, const struct moment *moment);
void tally_controller(struct tally *tally, const struct moment *moment);

#endif
