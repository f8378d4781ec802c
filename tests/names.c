/* The header's names for registers, bits, marks, levels and refusals: a bench
   is worked by them alone, and answers by them as the documents say. */
#include "names.h"

#include <stdio.h>
#include <string.h>

#include "by_name.h"
#include "compare.h"
#include "controller_names.h"
#include "tally_names.h"

#define IDLE_LSR (HAILSTOAT_LSR_HOLDING_EMPTY | HAILSTOAT_LSR_EMPTY)
#define FIFO_IIR(cause) (HAILSTOAT_IIR_FIFO | (cause))
#define EVERY_CAUSE (HAILSTOAT_IER_DATA | HAILSTOAT_IER_HOLDING_EMPTY | HAILSTOAT_IER_LINE_STATUS | HAILSTOAT_IER_MODEM)

static void reads(const char *what, uint32_t number, unsigned wanted)
{
    is(what, play(HAILSTOAT_READ_REGISTER, 0, number, 0), wanted);
}

static void arrives(unsigned marks, unsigned byte)
{
    play(HAILSTOAT_ARRIVAL, 0, marks, byte);
}

static void time_passes(const char *what, unsigned wanted)
{
    is(what, play(HAILSTOAT_CHARACTER_TIME, 0, 0, 0), wanted);
}

static void divisor_and_scratch(void)
{
    set_up(0);
    writes(0, HAILSTOAT_SCRATCH, 0x5A);
    reads("SCRATCH", HAILSTOAT_SCRATCH, 0x5A);
    writes(0, HAILSTOAT_LCR, HAILSTOAT_LCR_DIVISOR);
    reads("DLL", HAILSTOAT_DLL, 12);
    reads("DLM", HAILSTOAT_DLM, 0);
    is("the divisor at CLOCK_1_8432", hailstoat_word_answer(hailstoat_divisor(96000, HAILSTOAT_CLOCK_1_8432)), 12);
    is("the divisor at CLOCK_2_4576", hailstoat_word_answer(hailstoat_divisor(96000, HAILSTOAT_CLOCK_2_4576)), 16);
    is("the divisor at CLOCK_3_072", hailstoat_word_answer(hailstoat_divisor(96000, HAILSTOAT_CLOCK_3_072)), 20);
}

static void line_status(void)
{
    set_up(0);
    arrives(HAILSTOAT_MARK_PARITY, 1);
    reads("LSR with a parity mark", HAILSTOAT_LSR, HAILSTOAT_LSR_DATA | HAILSTOAT_LSR_PARITY | IDLE_LSR);
    reads("RBR", HAILSTOAT_RBR, 1);
    arrives(HAILSTOAT_MARK_FRAMING, 2);
    reads("LSR with a framing mark", HAILSTOAT_LSR, HAILSTOAT_LSR_DATA | HAILSTOAT_LSR_FRAMING | IDLE_LSR);
    reads("RBR", HAILSTOAT_RBR, 2);
    arrives(HAILSTOAT_MARK_BREAK, 0);
    reads("LSR with a break", HAILSTOAT_LSR, HAILSTOAT_LSR_DATA | HAILSTOAT_LSR_BREAK | IDLE_LSR);
    arrives(0, 3);
    reads("LSR after an overrun", HAILSTOAT_LSR, HAILSTOAT_LSR_DATA | HAILSTOAT_LSR_OVERRUN | IDLE_LSR);
}

static void queues(void)
{
    set_up(0);
    writes(0, HAILSTOAT_FCR, HAILSTOAT_FCR_FIFO | HAILSTOAT_FCR_TRIGGER_1);
    arrives(0, 1);
    arrives(HAILSTOAT_MARK_FRAMING, 2);
    reads("LSR before the marked one", HAILSTOAT_LSR, HAILSTOAT_LSR_DATA | HAILSTOAT_LSR_MARKED | IDLE_LSR);
    writes(0, HAILSTOAT_FCR, HAILSTOAT_FCR_FIFO | HAILSTOAT_FCR_EMPTY_RECEIVE);
    reads("LSR of emptied queues", HAILSTOAT_LSR, IDLE_LSR);
    writes(0, HAILSTOAT_THR, 0x47);
    reads("LSR with a byte to send", HAILSTOAT_LSR, 0);
    writes(0, HAILSTOAT_FCR, HAILSTOAT_FCR_FIFO | HAILSTOAT_FCR_EMPTY_TRANSMIT);
    reads("LSR of emptied queues", HAILSTOAT_LSR, IDLE_LSR);
}

/* A read of register 0: the byte, its marks, and how many remain behind it. */
static void reads_letter(const char *what, unsigned byte, unsigned marks, unsigned behind)
{
    uint64_t word = hailstoat_event(&worked, HAILSTOAT_READ_REGISTER, 0, HAILSTOAT_RBR, 0);
    is(what, hailstoat_word_answer(word), byte);
    is(what, hailstoat_word_marks(word), marks);
    is(what, hailstoat_word_behind(word), behind);
}

static void letters_in_fifo_mode(void)
{
    set_up(0);
    writes(0, HAILSTOAT_FCR, HAILSTOAT_FCR_FIFO);
    reads_letter("a letter from an empty queue", 0, 0, 0);
    arrives(HAILSTOAT_MARK_PARITY | HAILSTOAT_MARK_FRAMING, 0x41);
    arrives(HAILSTOAT_MARK_FRAMING, 0x42);
    arrives(HAILSTOAT_MARK_PARITY, 0x43);
    reads_letter("a marked letter with two behind it", 0x41, HAILSTOAT_MARK_PARITY | HAILSTOAT_MARK_FRAMING, 2);
    reads("LSR", HAILSTOAT_LSR, HAILSTOAT_LSR_DATA | HAILSTOAT_LSR_FRAMING | HAILSTOAT_LSR_MARKED | IDLE_LSR);
    reads_letter("a letter whose marks a read of LSR cleared", 0x42, 0, 1);
    reads_letter("a marked letter with none behind it", 0x43, HAILSTOAT_MARK_PARITY, 0);
    reads_letter("the last byte read", 0x43, 0, 0);
}

static void letters_in_16450_mode(void)
{
    set_up(0);
    arrives(HAILSTOAT_MARK_PARITY, 0x41);
    reads("LSR", HAILSTOAT_LSR, HAILSTOAT_LSR_DATA | HAILSTOAT_LSR_PARITY | IDLE_LSR);
    reads_letter("a letter after LSR was read", 0x41, HAILSTOAT_MARK_PARITY, 0);
    arrives(HAILSTOAT_MARK_FRAMING, 0x42);
    arrives(HAILSTOAT_MARK_BREAK, 0);
    reads_letter("a letter that replaced another", 0, HAILSTOAT_MARK_BREAK, 0);
    arrives(HAILSTOAT_MARK_PARITY, 0x43);
    writes(0, HAILSTOAT_LCR, HAILSTOAT_LCR_DIVISOR);
    reads_letter("DLL, which is no letter", 12, 0, 0);
}

static void trigger(unsigned choice, unsigned count)
{
    set_up(0);
    writes(0, HAILSTOAT_IER, HAILSTOAT_IER_DATA);
    writes(0, HAILSTOAT_FCR, HAILSTOAT_FCR_FIFO | HAILSTOAT_FCR_EMPTY_RECEIVE | choice);
    for (unsigned i = 1; i <= count; i += 1) {
        reads("IIR under the trigger", HAILSTOAT_IIR, FIFO_IIR(HAILSTOAT_IIR_NONE));
        arrives(0, i);
    }
    reads("IIR at the trigger", HAILSTOAT_IIR, FIFO_IIR(HAILSTOAT_IIR_DATA));
}

static void triggers(void)
{
    trigger(HAILSTOAT_FCR_TRIGGER_1, 1);
    trigger(HAILSTOAT_FCR_TRIGGER_4, 4);
    trigger(HAILSTOAT_FCR_TRIGGER_8, 8);
    trigger(HAILSTOAT_FCR_TRIGGER_14, 14);
}

/* Each cause in turn, the first first, and what takes it away. */
static void causes(void)
{
    set_up(0);
    writes(0, HAILSTOAT_IER, EVERY_CAUSE);
    play(HAILSTOAT_MODEM_INPUTS, 0, 0, HAILSTOAT_LEVEL_CTS);
    arrives(HAILSTOAT_MARK_FRAMING, 1);
    reads("IIR with a mark", HAILSTOAT_IIR, HAILSTOAT_IIR_LINE_STATUS);
    reads("LSR", HAILSTOAT_LSR, HAILSTOAT_LSR_DATA | HAILSTOAT_LSR_FRAMING | IDLE_LSR);
    reads("IIR with a character", HAILSTOAT_IIR, HAILSTOAT_IIR_DATA);
    reads("RBR", HAILSTOAT_RBR, 1);
    reads("IIR with nothing to send", HAILSTOAT_IIR, HAILSTOAT_IIR_HOLDING_EMPTY);
    reads("IIR after a change of CTS", HAILSTOAT_IIR, HAILSTOAT_IIR_MODEM);
    reads("MSR", HAILSTOAT_MSR, HAILSTOAT_MSR_CTS | HAILSTOAT_MSR_CTS_CHANGED);
    reads("IIR without a cause", HAILSTOAT_IIR, HAILSTOAT_IIR_NONE);
    writes(0, HAILSTOAT_FCR, HAILSTOAT_FCR_FIFO | HAILSTOAT_FCR_TRIGGER_14);
    arrives(0, 1);
    for (int i = 0; i < 4; i += 1)
        time_passes("a character time with nothing to send", HAILSTOAT_IDLE);
    reads("IIR after four character times", HAILSTOAT_IIR, FIFO_IIR(HAILSTOAT_IIR_TIMEOUT));
}

/* One level comes, and goes. */
static void level(unsigned input, unsigned up, unsigned down)
{
    play(HAILSTOAT_MODEM_INPUTS, 0, 0, input);
    reads("MSR after a level came", HAILSTOAT_MSR, up);
    play(HAILSTOAT_MODEM_INPUTS, 0, 0, 0);
    reads("MSR after it went", HAILSTOAT_MSR, down);
}

static void levels(void)
{
    level(HAILSTOAT_LEVEL_CTS, HAILSTOAT_MSR_CTS | HAILSTOAT_MSR_CTS_CHANGED, HAILSTOAT_MSR_CTS_CHANGED);
    level(HAILSTOAT_LEVEL_DSR, HAILSTOAT_MSR_DSR | HAILSTOAT_MSR_DSR_CHANGED, HAILSTOAT_MSR_DSR_CHANGED);
    level(HAILSTOAT_LEVEL_RI, HAILSTOAT_MSR_RI, HAILSTOAT_MSR_RI_ENDED);
    level(HAILSTOAT_LEVEL_DCD, HAILSTOAT_MSR_DCD | HAILSTOAT_MSR_DCD_CHANGED, HAILSTOAT_MSR_DCD_CHANGED);
}

static void word_length(unsigned lcr, unsigned sent)
{
    writes(0, HAILSTOAT_LCR, lcr);
    writes(0, HAILSTOAT_THR, 0xFF);
    time_passes("the time in which a byte moves in", HAILSTOAT_IDLE);
    time_passes("what was sent", sent);
}

static void sending(void)
{
    set_up(0);
    word_length(HAILSTOAT_LCR_5_BITS, 0x1F);
    word_length(HAILSTOAT_LCR_6_BITS, 0x3F);
    word_length(HAILSTOAT_LCR_7_BITS, 0x7F);
    word_length(HAILSTOAT_LCR_8_BITS, 0xFF);
    writes(0, HAILSTOAT_LCR, HAILSTOAT_LCR_8_BITS | HAILSTOAT_LCR_BREAK);
    time_passes("a character time in a break", HAILSTOAT_BREAK);
}

/* MCR's bits 0 to 3, each alone, against reads of MCR; a master reset clears them. */
static void modem_outputs(void)
{
    static const unsigned bits[] = {HAILSTOAT_MCR_DTR, HAILSTOAT_MCR_RTS, HAILSTOAT_MCR_OUT1, HAILSTOAT_MCR_OUT2};
    for (uint32_t seat = 0; seat < HAILSTOAT_SEATS; seat += 1) {
        writes(seat, HAILSTOAT_MCR, 1U << seat % 4);
        is("MCR", play(HAILSTOAT_READ_REGISTER, seat, HAILSTOAT_MCR, 0), bits[seat % 4]);
        is("the modem outputs", hailstoat_word_answer(hailstoat_modem_outputs(&worked, seat)), bits[seat % 4]);
    }
    is("seat 8", hailstoat_word_refusal(hailstoat_modem_outputs(&worked, 8)), HAILSTOAT_SEAT_ABOVE);
    is("seat 258", hailstoat_word_refusal(hailstoat_modem_outputs(&worked, 258)), HAILSTOAT_SEAT_ABOVE);
    play(HAILSTOAT_MASTER_RESET, 0, 0, 0);
    is("the modem outputs after a master reset", hailstoat_word_answer(hailstoat_modem_outputs(&worked, 3)), 0);
}

/* In loopback a seat hears itself and nothing else, and whoever is wired to it sees no output. */
static void loopback(void)
{
    set_up(0);
    writes(0, HAILSTOAT_MCR, HAILSTOAT_MCR_LOOP | HAILSTOAT_MCR_RTS | HAILSTOAT_MCR_OUT2);
    reads("MCR in loopback", HAILSTOAT_MCR, 0x1A);
    is("the modem outputs in loopback", hailstoat_word_answer(hailstoat_modem_outputs(&worked, 0)), 0);
    reads("RTS and OUT2, fed back", HAILSTOAT_MSR,
          HAILSTOAT_MSR_CTS | HAILSTOAT_MSR_DCD | HAILSTOAT_MSR_CTS_CHANGED | HAILSTOAT_MSR_DCD_CHANGED);
    arrives(0, 0x42);
    writes(0, HAILSTOAT_THR, 0x41);
    time_passes("41 moves in", HAILSTOAT_IDLE);
    time_passes("41 comes back", HAILSTOAT_IDLE);
    reads_letter("what was sent", 0x41, 0, 0);
    reads("LSR, all read", HAILSTOAT_LSR, HAILSTOAT_LSR_HOLDING_EMPTY | HAILSTOAT_LSR_EMPTY);
    writes(0, HAILSTOAT_MCR, HAILSTOAT_MCR_RTS);
    is("the modem outputs outside it", hailstoat_word_answer(hailstoat_modem_outputs(&worked, 0)), HAILSTOAT_MCR_RTS);
    reads("neither CTS nor DCD outside it", HAILSTOAT_MSR, HAILSTOAT_MSR_CTS_CHANGED | HAILSTOAT_MSR_DCD_CHANGED);
}

/* They do nothing: of IER and MCR they read 0, of LCR as written. */
static void bits_without_a_name(void)
{
    set_up(0);
    writes(0, HAILSTOAT_IER, 0xF0);
    reads("IER's bits without a name", HAILSTOAT_IER, 0);
    writes(0, HAILSTOAT_MCR, 0xE0);
    reads("MCR's bits without a name", HAILSTOAT_MCR, 0);
    writes(0, HAILSTOAT_LCR, 0x34);
    reads("LCR's bits without a name", HAILSTOAT_LCR, 0x34);
}

static void all_refusals_have_words(void)
{
    for (unsigned i = HAILSTOAT_ACCEPTED; i <= HAILSTOAT_TALLY_FULL + 1; i += 1)
        for (unsigned j = HAILSTOAT_ACCEPTED; j < i; j += 1)
            if (strcmp(hailstoat_refusal_words(i), hailstoat_refusal_words(j)) == 0)
                fail("two refusals have the same words");
    is_refused("a read before ICW1", HAILSTOAT_READ_CONTROLLER, HAILSTOAT_PORT_MASK, 0, HAILSTOAT_NOT_READY);
    is_refused("levels 16", HAILSTOAT_MODEM_INPUTS, 0, 16, HAILSTOAT_LEVELS_ABOVE);
    is_refused("register 8", HAILSTOAT_READ_REGISTER, 8, 0, HAILSTOAT_NUMBER_ABOVE);
    is_refused("kind 9", 9, 0, 0, HAILSTOAT_KIND_ABOVE);
    is_refused("an arrival at power-up", HAILSTOAT_ARRIVAL, 0, 0, HAILSTOAT_NO_DIVISOR);
    is("HAILSTOAT_SHORT", HAILSTOAT_SHORT, 4);
}

static void arrivals_that_cannot_be(void)
{
    set_up(0);
    writes(0, HAILSTOAT_LCR, HAILSTOAT_LCR_7_BITS);
    is_refused("marks 8", HAILSTOAT_ARRIVAL, 8, 0x80, HAILSTOAT_MARKS_ABOVE);
    is_refused("80 at seven bits", HAILSTOAT_ARRIVAL, HAILSTOAT_MARK_PARITY, 0x80, HAILSTOAT_BEYOND_WORD);
    is_refused("a parity mark without parity", HAILSTOAT_ARRIVAL, HAILSTOAT_MARK_PARITY | HAILSTOAT_MARK_BREAK, 1,
               HAILSTOAT_PARITY_UNASKED);
    is_refused("a break with data", HAILSTOAT_ARRIVAL, HAILSTOAT_MARK_BREAK, 1, HAILSTOAT_BREAK_WITH_DATA);
}

void names_mean(void)
{
    static void (*const parts[])(void) = {divisor_and_scratch, line_status, queues, letters_in_fifo_mode,
                                          letters_in_16450_mode, triggers, causes, levels, sending, modem_outputs, loopback,
                                          bits_without_a_name, all_refusals_have_words, arrivals_that_cannot_be};
    size_t count = each_from_power_up(parts, sizeof parts / sizeof parts[0]) + controller_names_mean() + tally_names_mean();
    printf("names: %zu ways to work a bench by them, each as the documents have it\n", count);
}
