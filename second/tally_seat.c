#include <stddef.h>

#include "tally.h"

static const struct channel *seat_before(const struct moment *moment)
{
    return &moment->before->seats[moment->event.seat];
}

static const struct channel *seat_after(const struct moment *moment)
{
    return &moment->after->seats[moment->event.seat];
}

static void tally_iir(struct tally *tally, const struct moment *moment)
{
    static const struct { unsigned iir; enum tally_item item; } named[] = {
        {0x06, TALLY_IIR_06}, {0x04, TALLY_IIR_04}, {0x02, TALLY_IIR_02}, {0x00, TALLY_IIR_00},
        {0x01, TALLY_IIR_01}, {0xC6, TALLY_IIR_C6}, {0xC4, TALLY_IIR_C4}, {0xCC, TALLY_IIR_CC},
        {0xC2, TALLY_IIR_C2}, {0xC0, TALLY_IIR_C0}, {0xC1, TALLY_IIR_C1},
    };
    const struct channel *seat = seat_before(moment);
    unsigned iir = moment->outcome.answer;
    for (size_t i = 0; i < sizeof named / sizeof named[0]; i += 1)
        tally_if(tally, iir == named[i].iir, named[i].item);
    tally_if(tally, iir == 0xC4, tally_behind(TALLY_TRIGGER_1, seat->fcr >> 6));
    tally_if(tally, iir == 0xC4 && seat->timeout_count == 4, TALLY_TRIGGER_OVER_TIMEOUT);
}

static void tally_lsr(struct tally *tally, const struct moment *moment)
{
    const struct channel *seat = seat_before(moment);
    bool fifo = channel_in_fifo_mode(seat);
    unsigned lsr = moment->outcome.answer;
    enum tally_item overrun = fifo ? TALLY_LSR_FIFO_OVERRUN : TALLY_LSR_16450_OVERRUN;
    for (unsigned bit = 1; bit <= 4; bit += 1)
        tally_if(tally, (lsr >> bit & 1U) != 0, tally_behind(overrun, bit - 1));
    bool marked = (lsr & LSR_MARKS) != 0;
    tally_if(tally, !fifo && marked && (lsr & LSR_DATA) == 0, TALLY_LSR_16450_KEPT);
    tally_if(tally, !marked && (lsr & LSR_SOME_MARK) != 0, TALLY_LSR_FIFO_MIDDLE);
    bool behind = queue_has_mark(&seat_after(moment)->receive);
    tally_if(tally, fifo && marked && behind, TALLY_LSR_FIFO_BOTH);
}

static void tally_read(struct tally *tally, const struct moment *moment)
{
    const struct channel *seat = seat_before(moment);
    unsigned number = moment->event.number;
    bool divisor = number <= 1 && (seat->lcr & LCR_DIVISOR) != 0;
    bool rbr = number == 0 && !divisor;
    bool taken = rbr && !queue_is_empty(&seat->receive);
    tally_if(tally, divisor, TALLY_DIVISOR_READ);
    tally_if(tally, taken && !channel_in_fifo_mode(seat), TALLY_RBR_16450);
    tally_if(tally, taken && channel_in_fifo_mode(seat), TALLY_RBR_FIFO);
    tally_if(tally, rbr && !taken, TALLY_RBR_EMPTY);
    tally_if(tally, number == 6 && (moment->outcome.answer & 0xFU) != 0, TALLY_MSR_CHANGED);
    if (number == 2)
        tally_iir(tally, moment);
    if (number == 5)
        tally_lsr(tally, moment);
}

static void tally_fcr(struct tally *tally, const struct moment *moment)
{
    const struct channel *seat = seat_before(moment);
    bool was = channel_in_fifo_mode(seat);
    bool is = channel_in_fifo_mode(seat_after(moment));
    bool receive = !queue_is_empty(&seat->receive);
    bool transmit = !queue_is_empty(&seat->transmit);
    unsigned byte = moment->event.value;
    tally_if(tally, !was && is && (receive || transmit), TALLY_FCR_TO_FIFO);
    tally_if(tally, was && !is && (receive || transmit), TALLY_FCR_TO_16450);
    tally_if(tally, was && is && receive && (byte & 2U) != 0, TALLY_FCR_RECEIVE);
    tally_if(tally, was && is && transmit && (byte & 4U) != 0, TALLY_FCR_TRANSMIT);
    bool asked = (receive && (byte & 2U) != 0) || (transmit && (byte & 4U) != 0);
    tally_if(tally, !was && !is && asked, TALLY_FCR_IGNORED);
}

static void tally_write(struct tally *tally, const struct moment *moment)
{
    const struct channel *seat = seat_before(moment);
    unsigned number = moment->event.number;
    bool divisor = number <= 1 && (seat->lcr & LCR_DIVISOR) != 0;
    bool thr = number == 0 && !divisor;
    bool full = seat->transmit.count == channel_places(seat);
    unsigned turned = seat_after(moment)->ier & ~seat->ier;
    bool on = (turned & IER_HOLDING_EMPTY) != 0;
    tally_if(tally, divisor, TALLY_DIVISOR_WRITE);
    tally_if(tally, thr && full && !channel_in_fifo_mode(seat), TALLY_THR_REPLACES);
    tally_if(tally, thr && full && channel_in_fifo_mode(seat), TALLY_THR_DROPPED);
    tally_if(tally, on && !seat->holding_empty && queue_is_empty(&seat->transmit), TALLY_IER_FLAG);
    tally_if(tally, on && !queue_is_empty(&seat->transmit), TALLY_IER_NO_FLAG);
    if (number == 2)
        tally_fcr(tally, moment);
}

static bool divisor_is_1(const struct channel *seat)
{
    return seat->divisor_low == 1 && seat->divisor_high == 0;
}

static void tally_arrival(struct tally *tally, const struct moment *moment)
{
    static const unsigned largest[4] = {0x1F, 0x3F, 0x7F, 0xFF};
    const struct channel *seat = seat_before(moment);
    bool fifo = channel_in_fifo_mode(seat);
    bool full = seat->receive.count == channel_places(seat);
    bool parity = (seat->lcr & LCR_PARITY) != 0;
    unsigned length = seat->lcr & 3U;
    unsigned marks = moment->event.number;
    unsigned data = moment->event.value;
    tally_if(tally, full && !fifo, TALLY_ARRIVAL_REPLACES);
    tally_if(tally, full && fifo, TALLY_ARRIVAL_LOST);
    tally_if(tally, seat->receive.count == PLACES_FIFO - 1, TALLY_ARRIVAL_SIXTEENTH);
    tally_if(tally, true, tally_behind(TALLY_WORD_5, length));
    tally_if(tally, data == largest[length], tally_behind(TALLY_EDGE_1F, length));
    tally_if(tally, marks == 7, TALLY_EDGE_MARKS_7);
    tally_if(tally, parity && (marks & MARK_PARITY) != 0,
             tally_behind(TALLY_PARITY_001, seat->lcr >> 4 & 3U));
    tally_if(tally, (marks & MARK_BREAK) != 0 && data == 0, TALLY_EDGE_BREAK_0);
    tally_if(tally, divisor_is_1(seat), TALLY_DIVISOR_1);
}

static void tally_modem(struct tally *tally, const struct moment *moment)
{
    unsigned was = seat_before(moment)->modem_levels;
    unsigned is = moment->event.value;
    tally_if(tally, (is & ~was & 4U) != 0, TALLY_RI_RISE);
    tally_if(tally, (was & ~is & 4U) != 0, TALLY_RI_FALL);
    tally_if(tally, is == 15, TALLY_EDGE_LEVELS_15);
}

static void tally_character_time(struct tally *tally, const struct moment *moment)
{
    const struct channel *seat = seat_before(moment);
    unsigned answer = moment->outcome.answer;
    tally_if(tally, answer < ANSWER_IDLE, TALLY_SENT);
    tally_if(tally, answer < ANSWER_IDLE && answer != seat->shift_register, TALLY_SENT_CUT);
    tally_if(tally, answer == ANSWER_IDLE, TALLY_SENT_IDLE);
    tally_if(tally, answer == ANSWER_BREAK && !seat->shift_full, TALLY_SENT_BREAK);
    tally_if(tally, answer == ANSWER_BREAK && seat->shift_full, TALLY_SENT_BREAK_FULL);
    bool fourth = seat->timeout_count == 3 && seat_after(moment)->timeout_count == 4;
    tally_if(tally, fourth, TALLY_TIMEOUT_4);
    tally_if(tally, divisor_is_1(seat), TALLY_DIVISOR_1);
}

void tally_seat(struct tally *tally, const struct moment *moment)
{
    bool registers = moment->event.kind <= KIND_WRITE_REGISTER;
    tally_if(tally, moment->event.seat == 7, TALLY_EDGE_SEAT_7);
    tally_if(tally, registers && moment->event.number == 7, TALLY_EDGE_REGISTER_7);
    /* In loopback the last three are others: tally_loopback. */
    if (!registers && channel_in_loopback(seat_before(moment)))
        return;
    switch (moment->event.kind) {
    case KIND_READ_REGISTER: tally_read(tally, moment); break;
    case KIND_WRITE_REGISTER: tally_write(tally, moment); break;
    case KIND_ARRIVAL: tally_arrival(tally, moment); break;
    case KIND_MODEM_INPUTS: tally_modem(tally, moment); break;
    default: tally_character_time(tally, moment); break;
    }
}
