/* Ticket 7: what a seat does inside, with MCR bit 4 set, and where a write of MCR
   enters or leaves. */
#include "tally.h"

#define INPUTS 4U

static const struct channel *seat_before(const struct moment *moment)
{
    return &moment->before->seats[moment->event.seat];
}

static const struct channel *seat_after(const struct moment *moment)
{
    return &moment->after->seats[moment->event.seat];
}

/* "bits 0, 1, 3 set when CTS, DSR, DCD change; bit 2 when RI goes from active to
   inactive" */
static unsigned changes_between(unsigned was, unsigned is)
{
    return ((was ^ is) & (LEVEL_CTS | LEVEL_DSR | LEVEL_DCD)) | (was & ~is & LEVEL_RI);
}

/* One item for each of the four, from that of CTS on. */
static void tally_each(struct tally *tally, unsigned levels, enum tally_item of_cts)
{
    for (unsigned i = 0; i < INPUTS; i += 1)
        tally_if(tally, (levels >> i & 1U) != 0, tally_behind(of_cts, i));
}

/* Change bits that are set now and were not. */
static unsigned newly_set(const struct moment *moment)
{
    return seat_after(moment)->modem_changes & ~seat_before(moment)->modem_changes;
}

static void tally_fed(struct tally *tally, const struct moment *moment)
{
    const struct channel *before = seat_before(moment);
    const struct channel *after = seat_after(moment);
    unsigned was = channel_inputs(before);
    unsigned is = channel_inputs(after);
    bool off = (before->mcr & ~after->mcr & MCR_LINE) != 0;
    bool rises = channel_line(after) && channel_cause(before) == CAUSE_NONE;
    tally_each(tally, is & ~was, TALLY_FED_CTS_ON);
    tally_each(tally, was & ~is, TALLY_FED_CTS_OFF);
    tally_if(tally, was == is, TALLY_FED_SAME);
    tally_if(tally, rises && (is & ~was & LEVEL_DCD) != 0, TALLY_FED_LINE_RISES);
    tally_if(tally, off && channel_line(before), TALLY_FED_LINE_HELD);
}

/* "also where a write of MCR enters or leaves" */
static void tally_mcr(struct tally *tally, const struct moment *moment)
{
    const struct channel *before = seat_before(moment);
    const struct channel *after = seat_after(moment);
    bool was_inside = channel_in_loopback(before);
    bool is_inside = channel_in_loopback(after);
    unsigned was = channel_inputs(before);
    unsigned is = channel_inputs(after);
    bool ri_rises = (is & ~was & LEVEL_RI) != 0;
    bool given = tally->given[moment->event.seat];
    if (was_inside && is_inside)
        tally_fed(tally, moment);
    if (!was_inside && is_inside) {
        tally_each(tally, newly_set(moment), TALLY_ENTER_CTS);
        tally_if(tally, ri_rises, TALLY_ENTER_RI_RISE);
        tally_if(tally, was == is, TALLY_ENTER_SAME);
    }
    if (was_inside && !is_inside) {
        tally_each(tally, newly_set(moment), TALLY_LEAVE_CTS);
        tally_if(tally, ri_rises, TALLY_LEAVE_RI_RISE);
        tally_if(tally, was == is, TALLY_LEAVE_SAME);
        tally_if(tally, given, TALLY_LEAVE_GIVEN);
    }
    tally_if(tally, !was_inside && !is_inside && before->mcr != after->mcr, TALLY_OUTSIDE_SAME);
    tally_if(tally, is_inside && moment->event.value > 0x1F, TALLY_MCR_DROPPED);
    tally->given[moment->event.seat] = false;
}

/* "modem levels are only remembered" */
static void tally_modem(struct tally *tally, const struct moment *moment)
{
    unsigned was = seat_before(moment)->modem_levels;
    unsigned is = seat_after(moment)->modem_levels;
    unsigned unset = ~seat_after(moment)->modem_changes;
    tally_each(tally, changes_between(was, is) & unset, TALLY_MODEM_CTS);
    if (was != is)
        tally->given[moment->event.seat] = true;
}

/* "arrivals .. are checked as before, but an arrival changes nothing" */
static void tally_arrival(struct tally *tally, const struct moment *moment)
{
    const struct channel *before = seat_before(moment);
    bool fifo = channel_in_fifo_mode(before);
    bool full = before->receive.count == channel_places(before);
    tally_if(tally, !full, TALLY_OUTER_ROOM);
    tally_if(tally, full && !fifo, TALLY_OUTER_16450);
    tally_if(tally, full && fifo, TALLY_OUTER_FIFO);
    tally_if(tally, !fifo && moment->event.number != 0, TALLY_OUTER_MARKED);
    if (before->timeout_count > 0)
        tally_if(tally, true, tally_behind(TALLY_OUTER_AT_1, before->timeout_count - 1));
}

static void tally_looped_16450(struct tally *tally, const struct channel *before)
{
    bool full = !queue_is_empty(&before->receive);
    tally_if(tally, !full, TALLY_LOOPED_16450);
    tally_if(tally, full, TALLY_LOOPED_REPLACES);
    tally_if(tally, queue_has_mark(&before->receive), TALLY_LOOPED_FOR_MARKED);
    tally_if(tally, before->kept_marks != 0, TALLY_LOOPED_KEPT);
}

static void tally_looped_fifo(struct tally *tally, const struct channel *before,
                              const struct channel *after)
{
    bool room = before->receive.count < PLACES_FIFO;
    enum tally_item at_0 = room ? TALLY_LOOPED_AT_0 : TALLY_LOOPED_LOST_AT_0;
    bool reached = !channel_trigger_reached(before) && channel_trigger_reached(after);
    tally_if(tally, true, tally_behind(at_0, before->timeout_count));
    tally_if(tally, queue_is_empty(&before->receive), TALLY_LOOPED_EMPTY);
    tally_if(tally, before->receive.count == PLACES_FIFO - 1, TALLY_LOOPED_SIXTEENTH);
    tally_if(tally, reached, TALLY_LOOPED_TRIGGER);
}

/* "the character that leaves is received at once, cut to the word length and
   without marks, before the next one moves in" */
static void tally_looped(struct tally *tally, const struct moment *moment)
{
    const struct channel *before = seat_before(moment);
    const struct channel *after = seat_after(moment);
    unsigned length = before->lcr & 3U;
    bool cut = before->shift_register > channel_largest_character(before);
    bool last = !before->holding_empty && after->holding_empty;
    bool rises = !channel_line(before) && channel_line(after);
    if (channel_in_fifo_mode(before))
        tally_looped_fifo(tally, before, after);
    else
        tally_looped_16450(tally, before);
    if (cut)
        tally_if(tally, true, tally_behind(TALLY_LOOPED_CUT_5, length));
    tally_if(tally, !cut && before->shift_register >= 0x80, TALLY_LOOPED_WHOLE);
    tally_if(tally, (before->lcr & LCR_BREAK) != 0, TALLY_LOOPED_BREAK);
    tally_if(tally, (before->lcr & LCR_PARITY) != 0, TALLY_LOOPED_PARITY);
    tally_if(tally, (before->lcr & LCR_DIVISOR) != 0, TALLY_LOOPED_DIVISOR);
    tally_if(tally, after->shift_full, TALLY_LOOPED_AND_NEXT);
    tally_if(tally, last, TALLY_LOOPED_AND_LAST);
    tally_if(tally, rises, TALLY_LOOPED_LINE);
    tally_if(tally, !tally->moved_inside[moment->event.seat], TALLY_LOOPED_CAME_IN);
}

static void tally_idle(struct tally *tally, const struct moment *moment)
{
    const struct channel *before = seat_before(moment);
    const struct channel *after = seat_after(moment);
    tally_if(tally, true, TALLY_IDLE_INSIDE);
    tally_if(tally, (before->lcr & LCR_BREAK) != 0, TALLY_IDLE_BREAK);
    tally_if(tally, after->timeout_count > before->timeout_count, TALLY_IDLE_COUNT);
    tally_if(tally, after->shift_full, TALLY_IDLE_NEXT);
}

static void tally_time(struct tally *tally, const struct moment *moment)
{
    const struct channel *before = seat_before(moment);
    bool *moved_inside = &tally->moved_inside[moment->event.seat];
    bool inside = channel_in_loopback(before);
    bool sent = !inside && before->shift_full && moment->outcome.answer < ANSWER_IDLE;
    if (inside && before->shift_full)
        tally_looped(tally, moment);
    if (inside && !before->shift_full)
        tally_idle(tally, moment);
    tally_if(tally, sent && *moved_inside, TALLY_SENT_WENT_OUT);
    *moved_inside = inside;
}

static void tally_read(struct tally *tally, const struct moment *moment)
{
    const struct channel *before = seat_before(moment);
    unsigned number = moment->event.number;
    unsigned answer = moment->outcome.answer;
    bool other = channel_inputs(before) != before->modem_levels;
    tally_if(tally, number == 6 && other, TALLY_MSR_OTHER);
    tally_if(tally, number == 6 && (answer & 0xFU) != 0, TALLY_MSR_INSIDE);
    tally_if(tally, number == 2 && (answer & 0x3FU) == CAUSE_MODEM, TALLY_IIR_INSIDE);
    tally_if(tally, moment->outcome.is_letter && moment->outcome.behind > 0, TALLY_TAKEN_INSIDE);
}

static void tally_refused(struct tally *tally, const struct moment *moment)
{
    enum refusal refusal = moment->outcome.refusal;
    bool arrival = moment->event.kind == KIND_ARRIVAL;
    bool time = moment->event.kind == KIND_CHARACTER_TIME;
    tally_if(tally, arrival && refusal == REFUSAL_NO_DIVISOR, TALLY_OUTER_REFUSED_5);
    tally_if(tally, refusal == REFUSAL_MARKS_ABOVE, TALLY_OUTER_REFUSED_6);
    tally_if(tally, refusal == REFUSAL_DATA_BEYOND, TALLY_OUTER_REFUSED_16);
    tally_if(tally, refusal == REFUSAL_PARITY_OFF, TALLY_OUTER_REFUSED_17);
    tally_if(tally, refusal == REFUSAL_BREAK_WITH_DATA, TALLY_OUTER_REFUSED_18);
    tally_if(tally, refusal == REFUSAL_LEVELS_ABOVE, TALLY_MODEM_REFUSED);
    tally_if(tally, time && refusal == REFUSAL_NO_DIVISOR, TALLY_TIME_REFUSED);
}

/* What is accepted inside, beside MCR writes and character times. */
static void tally_inside(struct tally *tally, const struct moment *moment)
{
    bool emptied = !queue_is_empty(&seat_before(moment)->receive)
        && queue_is_empty(&seat_after(moment)->receive);
    switch (moment->event.kind) {
    case KIND_READ_REGISTER: tally_read(tally, moment); break;
    case KIND_WRITE_REGISTER: tally_if(tally, emptied, TALLY_EMPTIED_INSIDE); break;
    case KIND_ARRIVAL: tally_arrival(tally, moment); break;
    case KIND_MODEM_INPUTS: tally_modem(tally, moment); break;
    default: break;
    }
}

/* "MCR bit 3 keeps gating the line." */
static void tally_line(struct tally *tally, const struct channel *after)
{
    bool held = channel_cause(after) != CAUSE_NONE && !channel_line(after);
    tally_if(tally, channel_line(after), TALLY_LINE_INSIDE);
    tally_if(tally, held, TALLY_LINE_HELD);
}

static void tally_seat_event(struct tally *tally, const struct moment *moment)
{
    bool inside = channel_in_loopback(seat_before(moment));
    bool refused = moment->outcome.refusal != REFUSAL_NONE;
    bool write = moment->event.kind == KIND_WRITE_REGISTER;
    if (inside && refused)
        tally_refused(tally, moment);
    if (refused)
        return;
    if (write && moment->event.number == 4)
        tally_mcr(tally, moment);
    if (moment->event.kind == KIND_CHARACTER_TIME)
        tally_time(tally, moment);
    if (inside)
        tally_inside(tally, moment);
    if (channel_in_loopback(seat_after(moment)))
        tally_line(tally, seat_after(moment));
}

/* "(a master reset sets none)" */
static void tally_reset(struct tally *tally, const struct moment *moment)
{
    for (unsigned seat = 0; seat < SEATS; seat += 1) {
        const struct channel *before = &moment->before->seats[seat];
        unsigned was = channel_inputs(before);
        unsigned is = before->modem_levels;
        tally->given[seat] = false;
        if (!channel_in_loopback(before))
            continue;
        tally_each(tally, changes_between(was, is), TALLY_RESET_CTS);
        tally_if(tally, (is & ~was & LEVEL_RI) != 0, TALLY_RESET_RI_RISE);
    }
}

void tally_loopback(struct tally *tally, const struct moment *moment)
{
    if (moment->event.kind <= KIND_CHARACTER_TIME && moment->event.seat < SEATS)
        tally_seat_event(tally, moment);
    if (moment->event.kind == KIND_MASTER_RESET)
        tally_reset(tally, moment);
}
