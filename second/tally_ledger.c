/* Ticket 8: "arrived, read, lost by overrun, dropped by emptying, still queued". */
#include "digest.h"
#include "tally.h"

static const struct channel *seat_before(const struct moment *moment)
{
    return &moment->before->seats[moment->event.seat];
}

static const struct channel *seat_after(const struct moment *moment)
{
    return &moment->after->seats[moment->event.seat];
}

static bool at_most(const struct channel *channel)
{
    return channel->ledger.arrived == LEDGER_MOST;
}

static bool is_full(const struct channel *channel)
{
    return channel->receive.count == channel_places(channel);
}

/* Of two items that stand together, one for each mode. */
static enum tally_item by_mode(const struct channel *channel, enum tally_item of_16450)
{
    return tally_behind(of_16450, channel_in_fifo_mode(channel) ? 1 : 0);
}

/* A character came in, from the wire or inside. */
static void tally_received(struct tally *tally, const struct moment *moment)
{
    const struct channel *before = seat_before(moment);
    bool inside = channel_in_loopback(before);
    bool lost = seat_after(moment)->ledger.lost > before->ledger.lost;
    bool last = at_most(seat_after(moment));
    enum tally_item queued = inside ? TALLY_CAME_BACK_16450 : TALLY_ARRIVED_16450;
    enum tally_item overrun = inside ? TALLY_OVERRUN_INSIDE_16450 : TALLY_OVERRUN_16450;
    tally_if(tally, !lost, by_mode(before, queued));
    tally_if(tally, lost, by_mode(before, overrun));
    tally_if(tally, lost && before->overrun, TALLY_OVERRUN_AGAIN);
    tally_if(tally, last, inside ? TALLY_LAST_INSIDE : TALLY_LAST_ARRIVAL);
}

static void tally_uncounted(struct tally *tally, const struct moment *moment)
{
    const struct channel *before = seat_before(moment);
    bool inside = channel_in_loopback(before);
    bool arrival = moment->event.kind == KIND_ARRIVAL;
    bool time = moment->event.kind == KIND_CHARACTER_TIME;
    bool idle = time && inside;
    bool sent = time && !inside && before->shift_full;
    bool next = !queue_is_empty(&before->transmit);
    tally_if(tally, arrival, TALLY_OUTER_UNCOUNTED);
    tally_if(tally, idle, TALLY_IDLE_UNCOUNTED);
    tally_if(tally, sent, TALLY_SENT_UNCOUNTED);
    tally_if(tally, arrival && at_most(before), TALLY_MOST_OUTER);
    tally_if(tally, idle && at_most(before), TALLY_MOST_IDLE);
    tally_if(tally, idle && next && at_most(before), TALLY_MOST_IDLE_NEXT);
    tally_if(tally, sent && at_most(before), TALLY_MOST_SENT);
}

static void tally_read(struct tally *tally, const struct moment *moment)
{
    const struct channel *before = seat_before(moment);
    bool empty = queue_is_empty(&before->receive);
    bool letter = moment->outcome.is_letter;
    bool counted = seat_after(moment)->ledger.read > before->ledger.read;
    bool dll = !letter && moment->event.number == 0;
    tally_if(tally, letter && counted, by_mode(before, TALLY_READ_TAKEN_16450));
    tally_if(tally, letter && empty, by_mode(before, TALLY_READ_EMPTY_16450));
    tally_if(tally, dll && !empty, TALLY_READ_DLL);
    tally_if(tally, counted && at_most(before), TALLY_MOST_READ);
}

static void tally_fcr(struct tally *tally, const struct moment *moment)
{
    const struct channel *before = seat_before(moment);
    unsigned byte = moment->event.value;
    unsigned held = before->receive.count;
    bool fifo = channel_in_fifo_mode(before);
    bool bit_0 = (byte & FCR_FIFO) != 0;
    bool bit_1 = (byte & FCR_EMPTY_RECEIVE) != 0;
    bool sending = bit_0 && (byte & FCR_EMPTY_TRANSMIT) != 0 && before->transmit.count > 0;
    bool drops = seat_after(moment)->ledger.dropped > before->ledger.dropped;
    bool empties = fifo != bit_0 || (bit_0 && bit_1);
    tally_if(tally, drops && fifo && bit_0, TALLY_DROPPED_BIT_1);
    tally_if(tally, drops && !fifo && !bit_1, TALLY_DROPPED_INTO_FIFO);
    tally_if(tally, drops && !fifo && bit_1, TALLY_DROPPED_BOTH);
    tally_if(tally, drops && fifo && !bit_0, TALLY_DROPPED_OUT_OF_FIFO);
    tally_if(tally, empties && held == 0, TALLY_DROPPED_NONE);
    tally_if(tally, drops && channel_in_loopback(before), TALLY_DROPPED_INSIDE);
    tally_if(tally, drops && held == PLACES_FIFO, TALLY_DROPPED_SIXTEEN);
    tally_if(tally, !drops && held > 0 && !fifo && bit_1, TALLY_UNDROPPED_16450);
    tally_if(tally, !drops && held > 0 && fifo, TALLY_UNDROPPED_FIFO);
    tally_if(tally, !drops && held > 0 && sending, TALLY_UNDROPPED_SENDING);
    tally_if(tally, drops && at_most(before), TALLY_MOST_DROPPED);
}

static void tally_write(struct tally *tally, const struct moment *moment)
{
    const struct channel *before = seat_before(moment);
    bool stuck = at_most(before) && channel_in_loopback(before) && before->shift_full;
    if (moment->event.number == 2)
        tally_fcr(tally, moment);
    tally_if(tally, stuck && !channel_in_loopback(seat_after(moment)), TALLY_FREED_LEAVING);
}

static void tally_arrival_19(struct tally *tally, const struct moment *moment)
{
    const struct channel *before = seat_before(moment);
    bool fifo = channel_in_fifo_mode(before);
    unsigned count = before->timeout_count;
    tally_if(tally, !is_full(before), by_mode(before, TALLY_REFUSED_19_16450));
    tally_if(tally, is_full(before), by_mode(before, TALLY_REFUSED_19_FULL_16450));
    tally_if(tally, !fifo && moment->event.number != 0, TALLY_REFUSED_19_MARKED);
    tally_if(tally, count > 0 && count < 4, TALLY_REFUSED_19_COUNTED);
}

static void tally_time_19(struct tally *tally, const struct moment *moment)
{
    const struct channel *before = seat_before(moment);
    bool fifo = channel_in_fifo_mode(before);
    bool counting = fifo && !queue_is_empty(&before->receive) && before->timeout_count < 4;
    tally_if(tally, !is_full(before), by_mode(before, TALLY_HELD_19_16450));
    tally_if(tally, is_full(before), by_mode(before, TALLY_HELD_19_FULL_16450));
    tally_if(tally, !queue_is_empty(&before->transmit), TALLY_HELD_19_NEXT);
    tally_if(tally, counting, TALLY_HELD_19_COUNTED);
    tally_if(tally, (before->lcr & LCR_BREAK) != 0, TALLY_HELD_19_BREAK);
}

/* "19, last in order" */
static void tally_refused(struct tally *tally, const struct moment *moment)
{
    const struct channel *before = seat_before(moment);
    enum refusal refusal = moment->outcome.refusal;
    bool inside = channel_in_loopback(before);
    bool arrival = moment->event.kind == KIND_ARRIVAL && !inside;
    bool time = moment->event.kind == KIND_CHARACTER_TIME && inside && before->shift_full;
    if (!at_most(before))
        return;
    tally_if(tally, arrival && refusal == REFUSAL_NO_DIVISOR, TALLY_MOST_5);
    tally_if(tally, arrival && refusal == REFUSAL_MARKS_ABOVE, TALLY_MOST_6);
    tally_if(tally, arrival && refusal == REFUSAL_DATA_BEYOND, TALLY_MOST_16);
    tally_if(tally, arrival && refusal == REFUSAL_PARITY_OFF, TALLY_MOST_17);
    tally_if(tally, arrival && refusal == REFUSAL_BREAK_WITH_DATA, TALLY_MOST_18);
    tally_if(tally, time && refusal == REFUSAL_NO_DIVISOR, TALLY_MOST_5_TIME);
    if (arrival && refusal == REFUSAL_ARRIVED_FULL)
        tally_arrival_19(tally, moment);
    if (time && refusal == REFUSAL_ARRIVED_FULL)
        tally_time_19(tally, moment);
}

static void tally_seat_event(struct tally *tally, const struct moment *moment)
{
    bool received = seat_after(moment)->ledger.arrived > seat_before(moment)->ledger.arrived;
    if (moment->outcome.refusal != REFUSAL_NONE) {
        tally_refused(tally, moment);
        return;
    }
    switch (moment->event.kind) {
    case KIND_READ_REGISTER: tally_read(tally, moment); break;
    case KIND_WRITE_REGISTER: tally_write(tally, moment); break;
    case KIND_MODEM_INPUTS: break;
    default: received ? tally_received(tally, moment) : tally_uncounted(tally, moment);
    }
}

/* "a master reset drops" */
static void tally_reset(struct tally *tally, const struct moment *moment)
{
    for (unsigned seat = 0; seat < SEATS; seat += 1) {
        const struct channel *before = &moment->before->seats[seat];
        bool drops = moment->after->seats[seat].ledger.dropped > before->ledger.dropped;
        bool inside = channel_in_loopback(before);
        tally_if(tally, drops, by_mode(before, TALLY_RESET_DROPS_16450));
        tally_if(tally, drops && inside, TALLY_RESET_DROPS_INSIDE);
        tally_if(tally, drops && at_most(before), TALLY_MOST_RESET);
        tally_if(tally, at_most(before) && inside && before->shift_full, TALLY_FREED_RESET);
    }
}

void tally_ledger(struct tally *tally, const struct moment *moment)
{
    tally_if(tally, moment->event.seat % LEDGER_SEATS >= SEATS, TALLY_ASKED_ABOVE);
    if (moment->event.kind <= KIND_CHARACTER_TIME && moment->event.seat < SEATS)
        tally_seat_event(tally, moment);
    if (moment->event.kind == KIND_MASTER_RESET)
        tally_reset(tally, moment);
}
