/* Hailstoat's bench for control software in C or C++: eight seats, each one
   channel of a TL16C552A, on the lines of one Intel 8259A. docs/EMBEDDING.md
   says how to link it.

   The caller holds the bench and lends it for the time of a call; the library
   keeps nothing, so different benches may be used in different threads at the
   same time. Every call is proved to give exactly the answer, the bench and the
   lent bytes that documents 01 and 02 ask, on every bench and for every number:
   kind, seat, number, line, rate, clock, divisor and LCR byte are 32 bits wide
   and tested as they are, so that seat 258 is refused and not taken for seat 2.
   Only the value of an event is a byte, as on a port. Answers are written in
   hexadecimal below, as in document 01.

   What C cannot be promised, since no contract reaches so far:
   - a null pointer, one to fewer than HAILSTOAT_BYTES bytes, or one to no
     multiple of HAILSTOAT_ALIGNMENT, is not refused: the call goes where the
     pointer goes;
   - the same of a line or a buffer that has fewer bytes than its length says,
     and of a null pointer to one, though its length be 0;
   - what a call is lent to write to lies apart from all else that it is lent;
   - a yes-or-no byte holds 0 or 1. In a bench that other code has written, a
     byte above 1 in a bool is no value at all, and no call is bound by it;
   - two calls on one bench at the same time. */
#ifndef HAILSTOAT_H
#define HAILSTOAT_H

#include <stddef.h>
#include <stdint.h>

#ifdef __cplusplus
extern "C" {
#else
#include <stdbool.h>
#endif

/* 10000 times the major number, 100 times the minor, and the patch. The major
   number changes where a program must be changed, or compiled again. */
#define HAILSTOAT_VERSION 30100

#define HAILSTOAT_SEATS 8
#define HAILSTOAT_SLOTS 16
#define HAILSTOAT_BYTES 812
#define HAILSTOAT_ALIGNMENT 4

/* What a saved bench takes, and at most a settings line. */
#define HAILSTOAT_IMAGE_BYTES 704
#define HAILSTOAT_LINE_BYTES 13

/* ---- the bench

   Four bytes for every tally and one for every other number and every yes or
   no, in the order written: 812 bytes, at a multiple of 4. Two bytes at the end
   of each seat are no field's, since the tallies of the next one lie at a
   multiple of 4; all else lies with nothing between. So

       struct hailstoat_bench bench = {0};

   is the bench at power-up (in C++, = {}). The fields may be read and copied
   at will; events are the way to change them. The two bytes have no value: a
   call may leave anything in them, so compare benches by their fields. */

/* Marks as in HAILSTOAT_MARK_PARITY. */
struct hailstoat_character {
    uint8_t data;
    uint8_t marks;
};

/* The oldest character is slots[0]; those from count on are 0. */
struct hailstoat_queue {
    struct hailstoat_character slots[HAILSTOAT_SLOTS];
    uint8_t count;
};

struct hailstoat_settings {
    uint8_t ier;
    uint8_t fcr; /* bits 0, 3, 6 and 7 as last written; 0 in 16450 mode */
    uint8_t lcr;
    uint8_t mcr;
    uint8_t scratch;
    uint8_t dll; /* the divisor's low byte */
    uint8_t dlm; /* and its high byte */
};

struct hailstoat_receiver {
    struct hailstoat_queue queue;
    bool overrun;
    uint8_t kept; /* the kept marks of 16450 mode */
    uint8_t timeout; /* the time-out count, 0 to 4 */
    uint8_t last; /* the last byte read */
};

struct hailstoat_transmitter {
    struct hailstoat_queue queue;
    bool busy; /* a character is in the shift register */
    uint8_t shift;
    bool flag; /* the holding-empty flag */
};

/* CTS, DSR, RI and DCD are bits 0 to 3 of both, as in HAILSTOAT_LEVEL_CTS. */
struct hailstoat_modem {
    uint8_t levels;
    uint8_t changes; /* MSR bits 0 to 3 */
};

/* The tallies as in struct hailstoat_five but for the fifth: how many are still
   queued is the receiver's queue.count. */
struct hailstoat_four {
    uint32_t arrived;
    uint32_t read;
    uint32_t lost;
    uint32_t dropped;
};

struct hailstoat_seat {
    struct hailstoat_four tallies;
    struct hailstoat_settings settings;
    struct hailstoat_receiver receiver;
    struct hailstoat_transmitter transmitter;
    struct hailstoat_modem modem;
};

/* Line n is bit n of every set of lines. */
struct hailstoat_lines {
    uint8_t levels; /* as after the last event */
    uint8_t latches;
};

struct hailstoat_setup {
    uint8_t stage; /* 0 before ICW1, 1 awaits ICW2, 2 awaits ICW4, 3 ready */
    bool level; /* level mode */
    uint8_t base;
    bool automatic; /* automatic end */
};

struct hailstoat_operation {
    uint8_t mask;
    uint8_t service;
    uint8_t first; /* the first-ranked line */
    bool rotation; /* of automatic end */
    bool special; /* special mask */
    bool selected; /* port 0 reads in-service */
};

struct hailstoat_controller {
    struct hailstoat_lines lines;
    struct hailstoat_setup setup;
    struct hailstoat_operation operation;
};

struct hailstoat_bench {
    struct hailstoat_seat seats[HAILSTOAT_SEATS];
    struct hailstoat_controller controller;
};

/* ---- the word

   A call that can be refused answers with one word: 0000BBMM01RRAAAA where the
   output is high and 0000BBMM00RRAAAA where it is low, RR the refusal number (0
   for none) and AAAA the answer, which is 0FFF in every refusal. MM and BB are
   the marks of a character that was read and how many remain behind it. The top
   four digits are 0: later versions may use them, so compare what the functions
   below give, and not the word. */

static inline unsigned hailstoat_word_refusal(uint64_t word)
{
    return (unsigned)(word >> 16 & 0xFFu);
}

/* Cut to a byte, the answer to a read is the byte that was read, and FF where
   the read was refused, as on a bus where nobody answers. */
static inline unsigned hailstoat_word_answer(uint64_t word)
{
    return (unsigned)(word & 0xFFFFu);
}

static inline unsigned hailstoat_word_output(uint64_t word)
{
    return (unsigned)(word >> 24 & 1u);
}

/* Of a read of RBR: the marks of the character that was read, as in
   HAILSTOAT_MARK_PARITY, and how many remain in the queue behind it. In 16450
   mode they are the marks that it arrived with, even after LSR was read; in FIFO
   mode marks that a read of LSR cleared stay cleared. From an empty queue: no
   marks, none behind. Every other answer, a read of DLL too, has 0 for both. */
static inline unsigned hailstoat_word_marks(uint64_t word)
{
    return (unsigned)(word >> 32 & 0xFFu);
}

static inline unsigned hailstoat_word_behind(uint64_t word)
{
    return (unsigned)(word >> 40 & 0xFFu);
}

/* Of an acknowledge that was not refused: its vector, spurious or not, and 1 if
   it was spurious. The answer 147 is the vector 47, and spurious. A refused
   acknowledge was not spurious. */
static inline unsigned hailstoat_word_vector(uint64_t word)
{
    return hailstoat_word_answer(word) & 0xFFu;
}

static inline unsigned hailstoat_word_spurious(uint64_t word)
{
    return hailstoat_word_refusal(word) == 0 ? hailstoat_word_answer(word) >> 8 & 1u : 0u;
}

/* ---- events */

enum hailstoat_kind {
    HAILSTOAT_READ_REGISTER = 0, /* seat, register, -: the byte */
    HAILSTOAT_WRITE_REGISTER = 1, /* seat, register, byte: 000 */
    HAILSTOAT_ARRIVAL = 2, /* seat, marks, data: 000 */
    HAILSTOAT_MODEM_INPUTS = 3, /* seat, -, levels: 000 */
    HAILSTOAT_CHARACTER_TIME = 4, /* seat: the byte sent; 100 idle; 200 break */
    HAILSTOAT_MASTER_RESET = 5, /* none: 000 */
    HAILSTOAT_READ_CONTROLLER = 6, /* -, port: the byte */
    HAILSTOAT_WRITE_CONTROLLER = 7, /* -, port, byte: 000 */
    HAILSTOAT_ACKNOWLEDGE = 8, /* none: the vector; 100 + vector if spurious */
};

enum hailstoat_refusal {
    HAILSTOAT_ACCEPTED = 0,
    HAILSTOAT_SEAT_ABOVE = 1,
    HAILSTOAT_NUMBER_ABOVE = 2,
    HAILSTOAT_KIND_ABOVE = 3,
    HAILSTOAT_SHORT = 4, /* of records alone */
    HAILSTOAT_NO_DIVISOR = 5,
    HAILSTOAT_MARKS_ABOVE = 6, /* of an arrival; 16, 17 and 18 are tried right behind it */
    HAILSTOAT_LEVELS_ABOVE = 7,
    HAILSTOAT_NOT_READY = 8, /* any read, an acknowledge, a port 0 write without bit 4,
                                or a port 1 write before any accepted ICW1 */
    HAILSTOAT_NOT_SERVED = 9, /* ICW1 with bit 0 or bit 1 clear; ICW4 with bit 0 clear;
                                 OCW3 with bit 2 set */
    HAILSTOAT_NOT_LISTED = 10, /* of hailstoat_divisor, and of settings lines behind 11 */
    HAILSTOAT_NO_SETTING = 11, /* of settings lines */
    HAILSTOAT_NO_ROOM = 12, /* of a settings line that is written, behind 10; of a save;
                               and of a restore from fewer bytes than a saved bench has */
    HAILSTOAT_WRONG_MARK = 13, /* of a restore, and so are the next two */
    HAILSTOAT_UNKNOWN_VERSION = 14,
    HAILSTOAT_NO_SUCH_BENCH = 15,
    HAILSTOAT_BEYOND_WORD = 16, /* data with more bits than LCR bits 0 and 1 say */
    HAILSTOAT_PARITY_UNASKED = 17, /* a parity mark while LCR bit 3 is clear */
    HAILSTOAT_BREAK_WITH_DATA = 18, /* a break mark with data not 0 */
    HAILSTOAT_TALLY_FULL = 19, /* a character would be received, from the line or in
                                  loopback, where arrived is FFFFFFFF; tried last */
};

/* A refusal in words, for a log. */
static inline const char *hailstoat_refusal_words(unsigned refusal)
{
    switch (refusal) {
    case HAILSTOAT_ACCEPTED: return "accepted";
    case HAILSTOAT_SEAT_ABOVE: return "seat or line above 7";
    case HAILSTOAT_NUMBER_ABOVE: return "register above 7, port above 1";
    case HAILSTOAT_KIND_ABOVE: return "kind above 8";
    case HAILSTOAT_SHORT: return "record cut off at the end";
    case HAILSTOAT_NO_DIVISOR: return "arrival or character time while the divisor is 0";
    case HAILSTOAT_MARKS_ABOVE: return "marks above 7";
    case HAILSTOAT_LEVELS_ABOVE: return "modem levels above 15";
    case HAILSTOAT_NOT_READY: return "controller not ready";
    case HAILSTOAT_NOT_SERVED: return "not served (cascaded controllers, 8080 mode, poll)";
    case HAILSTOAT_NOT_LISTED: return "rate or clock not in the divisor list";
    case HAILSTOAT_NO_SETTING: return "no settings line, or an LCR byte that none gives";
    case HAILSTOAT_NO_ROOM: return "lent buffer too short";
    case HAILSTOAT_WRONG_MARK: return "wrong mark";
    case HAILSTOAT_UNKNOWN_VERSION: return "unknown version";
    case HAILSTOAT_NO_SUCH_BENCH: return "a saved bench that cannot be";
    case HAILSTOAT_BEYOND_WORD: return "data beyond the word length";
    case HAILSTOAT_PARITY_UNASKED: return "parity mark with parity off";
    case HAILSTOAT_BREAK_WITH_DATA: return "break with data not 0";
    case HAILSTOAT_TALLY_FULL: return "reception that no tally can hold";
    default: return "no refusal that this header knows";
    }
}

/* Other answers than a byte, a vector, a place, a divisor or a length. */
#define HAILSTOAT_IDLE 0x100 /* of a character time: nothing was sent */
#define HAILSTOAT_BREAK 0x200 /* of a character time: a break was sent */
#define HAILSTOAT_REFUSED 0xFFF

/* ---- the numbers of events */

/* Registers. Where two share a number, the first is read and the second written;
   DLL and DLM are there, both ways, while LCR_DIVISOR is set. */
enum hailstoat_register {
    HAILSTOAT_RBR = 0,
    HAILSTOAT_THR = 0,
    HAILSTOAT_IER = 1,
    HAILSTOAT_IIR = 2,
    HAILSTOAT_FCR = 2,
    HAILSTOAT_LCR = 3,
    HAILSTOAT_MCR = 4,
    HAILSTOAT_LSR = 5,
    HAILSTOAT_MSR = 6,
    HAILSTOAT_SCRATCH = 7,
    HAILSTOAT_DLL = 0,
    HAILSTOAT_DLM = 1,
};

/* The controller's ports. */
enum hailstoat_port {
    HAILSTOAT_PORT_COMMAND = 0, /* ICW1, OCW2 and OCW3; reads requests or in-service */
    HAILSTOAT_PORT_MASK = 1, /* ICW2 and ICW4; the mask, both ways, once it is ready */
};

/* The marks of an arrival. */
#define HAILSTOAT_MARK_PARITY 0x01
#define HAILSTOAT_MARK_FRAMING 0x02
#define HAILSTOAT_MARK_BREAK 0x04

/* ---- the bits of registers; those without a name do nothing: of IER and MCR
   they read 0, of LCR as written, and FCR is never read */

/* IER: the causes that are let through. */
#define HAILSTOAT_IER_DATA 0x01
#define HAILSTOAT_IER_HOLDING_EMPTY 0x02
#define HAILSTOAT_IER_LINE_STATUS 0x04
#define HAILSTOAT_IER_MODEM 0x08

/* IIR: the first cause; in FIFO mode IIR_FIFO is added. */
#define HAILSTOAT_IIR_NONE 0x01
#define HAILSTOAT_IIR_LINE_STATUS 0x06
#define HAILSTOAT_IIR_DATA 0x04
#define HAILSTOAT_IIR_TIMEOUT 0x0C
#define HAILSTOAT_IIR_HOLDING_EMPTY 0x02
#define HAILSTOAT_IIR_MODEM 0x00
#define HAILSTOAT_IIR_FIFO 0xC0

#define HAILSTOAT_FCR_FIFO 0x01
#define HAILSTOAT_FCR_EMPTY_RECEIVE 0x02
#define HAILSTOAT_FCR_EMPTY_TRANSMIT 0x04
#define HAILSTOAT_FCR_TRIGGER_1 0x00
#define HAILSTOAT_FCR_TRIGGER_4 0x40
#define HAILSTOAT_FCR_TRIGGER_8 0x80
#define HAILSTOAT_FCR_TRIGGER_14 0xC0

#define HAILSTOAT_LCR_5_BITS 0x00
#define HAILSTOAT_LCR_6_BITS 0x01
#define HAILSTOAT_LCR_7_BITS 0x02
#define HAILSTOAT_LCR_8_BITS 0x03
#define HAILSTOAT_LCR_PARITY 0x08
#define HAILSTOAT_LCR_BREAK 0x40
#define HAILSTOAT_LCR_DIVISOR 0x80

/* MCR; the first four are the answer of hailstoat_modem_outputs too, outside loopback. */
#define HAILSTOAT_MCR_DTR 0x01
#define HAILSTOAT_MCR_RTS 0x02
#define HAILSTOAT_MCR_OUT1 0x04
#define HAILSTOAT_MCR_OUT2 0x08 /* lets the seat's line through */
#define HAILSTOAT_MCR_LOOP 0x10 /* loopback: the seat hears itself and nothing from outside */

#define HAILSTOAT_LSR_DATA 0x01
#define HAILSTOAT_LSR_OVERRUN 0x02
#define HAILSTOAT_LSR_PARITY 0x04
#define HAILSTOAT_LSR_FRAMING 0x08
#define HAILSTOAT_LSR_BREAK 0x10
#define HAILSTOAT_LSR_HOLDING_EMPTY 0x20 /* the transmit queue is empty */
#define HAILSTOAT_LSR_EMPTY 0x40 /* and so is the shift register */
#define HAILSTOAT_LSR_MARKED 0x80 /* in FIFO mode: some queued character has a mark */

#define HAILSTOAT_MSR_CTS_CHANGED 0x01
#define HAILSTOAT_MSR_DSR_CHANGED 0x02
#define HAILSTOAT_MSR_RI_ENDED 0x04
#define HAILSTOAT_MSR_DCD_CHANGED 0x08
#define HAILSTOAT_MSR_CTS 0x10
#define HAILSTOAT_MSR_DSR 0x20
#define HAILSTOAT_MSR_RI 0x40
#define HAILSTOAT_MSR_DCD 0x80

/* The levels of HAILSTOAT_MODEM_INPUTS: set is active. */
#define HAILSTOAT_LEVEL_CTS 0x01
#define HAILSTOAT_LEVEL_DSR 0x02
#define HAILSTOAT_LEVEL_RI 0x04
#define HAILSTOAT_LEVEL_DCD 0x08

/* ---- the controller's words */

/* At the command port ICW1, then at the mask port ICW2, whose top five bits are
   the base, and ICW4. ICW1_SINGLE, ICW1_ICW4 and ICW4_8086 must be set. */
#define HAILSTOAT_ICW1 0x10
#define HAILSTOAT_ICW1_ICW4 0x01
#define HAILSTOAT_ICW1_SINGLE 0x02
#define HAILSTOAT_ICW1_LEVEL 0x08
#define HAILSTOAT_ICW4_8086 0x01
#define HAILSTOAT_ICW4_AUTOMATIC 0x02

/* OCW2, at the command port; with the number of a line added where LINE or LAST
   is in the name. */
#define HAILSTOAT_OCW2_END 0x20
#define HAILSTOAT_OCW2_END_ROTATING 0xA0
#define HAILSTOAT_OCW2_END_LINE 0x60
#define HAILSTOAT_OCW2_END_LINE_ROTATING 0xE0
#define HAILSTOAT_OCW2_MAKE_LAST 0xC0
#define HAILSTOAT_OCW2_ROTATION_ON 0x80
#define HAILSTOAT_OCW2_ROTATION_OFF 0x00

/* OCW3, at the command port: special mask on is OCW3 | OCW3_SETS_SPECIAL |
   OCW3_SPECIAL, off the same without OCW3_SPECIAL; OCW3 | OCW3_SELECTS selects
   requests for reads, with OCW3_SERVICE in-service. */
#define HAILSTOAT_OCW3 0x08
#define HAILSTOAT_OCW3_SERVICE 0x01
#define HAILSTOAT_OCW3_SELECTS 0x02
#define HAILSTOAT_OCW3_POLL 0x04 /* refused: not served */
#define HAILSTOAT_OCW3_SPECIAL 0x20
#define HAILSTOAT_OCW3_SETS_SPECIAL 0x40

/* ---- calls */

/* One event: kind, seat, number, value. What a kind does not use is not looked
   at. An event touches the one seat it names, or the controller; a master reset
   touches all eight seats. Line changes reach the controller's latches in the
   same event. The word has the refusal, the answer, with it the marks of a
   character that was read and how many remain behind it, and the output after
   the event. In a refusal nothing changes. */
uint64_t hailstoat_event(struct hailstoat_bench *bench, uint32_t kind, uint32_t seat,
                         uint32_t number, uint8_t value);

/* Power-up: all registers, divisor, scratch, modem inputs, flags, marks and
   counts 0, queues and shift register empty; the controller not ready, all 0,
   and line 0 ranks first. Whatever the bench was, it is zeroed then. */
void hailstoat_power_up(struct hailstoat_bench *bench);

/* ---- questions, which change nothing */

/* A line's place in turn: the number of lines ranked above it. Line above 7
   gives refusal 1. The word's output is 0: no event has passed. */
uint64_t hailstoat_place(const struct hailstoat_bench *bench, uint32_t line);

/* The modem outputs of a seat, HAILSTOAT_MCR_DTR to HAILSTOAT_MCR_OUT2, as whoever
   is wired to it sees them: an output is active where its bit of MCR is set, and in
   loopback none is. Seat above 7 gives refusal 1. The word's output is 0. */
uint64_t hailstoat_modem_outputs(const struct hailstoat_bench *bench, uint32_t seat);

/* Where a seat's received characters went since power-up. Arrived is the sum of
   the other four, in every bench that events have made. */
struct hailstoat_five {
    uint32_t arrived; /* from outside, or in loopback from the seat itself */
    uint32_t read; /* by a read of RBR */
    uint32_t lost; /* by overrun: no room was left, or in 16450 mode a newer one replaced it */
    uint32_t dropped; /* by emptying: a write of FCR, or a master reset */
    uint32_t queued; /* still waiting to be read */
};

/* The five tallies of a seat, stored in *five, which may not lie in the bench.
   What arrives from outside in loopback is not counted, nor what is refused.
   The answer is 000. Seat above 7 gives refusal 1, and all five are 0. The
   word's output is 0. */
uint64_t hailstoat_tallies(const struct hailstoat_bench *bench, uint32_t seat,
                           struct hailstoat_five *five);

/* 1 if the controller's output is high, else 0: high exactly if the controller
   is ready and some line is grantable. */
uint8_t hailstoat_output(const struct hailstoat_bench *bench);

enum hailstoat_clock {
    HAILSTOAT_CLOCK_1_8432 = 0, /* MHz */
    HAILSTOAT_CLOCK_2_4576 = 1,
    HAILSTOAT_CLOCK_3_072 = 2,
};

/* The divisor list: the divisor for a rate in tenths of a baud at a clock. A rate
   or clock not in the list gives refusal 10. The word's output is 0. */
uint64_t hailstoat_divisor(uint32_t rate, uint32_t clock);

/* ---- settings lines, as control sheets have them: 9600,E,7,2

   The rate in baud, the parity N, O, E, M or S, 5 to 8 bits and the stop, 1 or 2,
   at five bits 1 or 1.5; nothing else, so no blank, no line end and no 0 behind
   it: the length tells where a line ends. Seven bits, even parity and two stop
   bits are the LCR byte 1E. */

/* A line read at a clock. The answer is the divisor, as hailstoat_divisor gives it,
   and the LCR byte is stored in *lcr. Any other line gives refusal 11; behind it, a
   rate or clock not in the divisor list gives refusal 10. Then *lcr is 0. The word's
   output is 0. */
uint64_t hailstoat_read_setting(const uint8_t *line, size_t length, uint32_t clock, uint8_t *lcr);

/* The line of a divisor and an LCR byte at a clock, put at the start of the buffer.
   The answer is its length; the bytes behind it stay. An LCR byte that no line gives
   gives refusal 11; behind it, a divisor or clock not in the divisor list refusal 10,
   and a buffer too short for the line refusal 12. Then the whole buffer stays. The
   word's output is 0. */
uint64_t hailstoat_write_setting(uint32_t divisor, uint32_t lcr, uint32_t clock, uint8_t *buffer,
                                 size_t length);

/* ---- a bench saved, and restored

   A saved bench is HAILSTOAT_IMAGE_BYTES bytes of the house's own format, version 2,
   with a byte for each number and each yes or no, tallies low byte first. It has
   no bytes without a value and does not depend on the compiler, so it may be kept in
   a file, sent, and compared with memcmp. The place is where it begins in the buffer,
   counted from the buffer's first byte. */

/* The whole bench into the buffer, at a place. The answer is 000; all other bytes
   stay. Fewer than HAILSTOAT_IMAGE_BYTES bytes from the place on give refusal 12, and
   nothing is written. The bench stays, and the word's output is 0: no event has
   passed. */
uint64_t hailstoat_save(const struct hailstoat_bench *bench, uint8_t *buffer, size_t length,
                        size_t place);

/* The bench becomes the one that is saved at a place of the buffer, and answers every
   later event as the saved one would; nothing is left of what it was. The answer is
   000. Version 1, of 544 bytes, is read too: of each seat as many have arrived then
   as are queued. Refused, in this order: fewer than 5 bytes from the place on, 12; no
   BEN at the place, 13; another version, 14; fewer bytes than the version has, 12;
   what no bench can be, 15. Then the bench stays. As after an event, the word's output
   is that of the bench as the call leaves it. */
uint64_t hailstoat_restore(struct hailstoat_bench *bench, const uint8_t *buffer, size_t length,
                           size_t place);

/* ---- the library */

/* The version of the library, to compare with HAILSTOAT_VERSION at the start. */
uint32_t hailstoat_version(void);

/* The bytes of the bench that the library was built for. Where it is not
   sizeof (struct hailstoat_bench), this header is another version's. */
size_t hailstoat_size(void);

/* The numbers that a compiler must agree with, checked as it compiles. */
struct hailstoat_behind_a_byte {
    uint8_t byte;
    struct hailstoat_bench bench;
};

#define HAILSTOAT_LAID_OUT                                                     \
    (sizeof(struct hailstoat_bench) == HAILSTOAT_BYTES                         \
     && offsetof(struct hailstoat_behind_a_byte, bench) == HAILSTOAT_ALIGNMENT \
     && sizeof(struct hailstoat_five) == 5 * sizeof(uint32_t))

#ifdef __cplusplus
}
static_assert(HAILSTOAT_LAID_OUT, "the bench has another size or alignment than the library's");
#elif defined __STDC_VERSION__ && __STDC_VERSION__ >= 201112L
_Static_assert(HAILSTOAT_LAID_OUT, "the bench has another size or alignment than the library's");
#else
typedef char hailstoat_bench_is_the_library_s[HAILSTOAT_LAID_OUT ? 1 : -1];
#endif

#endif
