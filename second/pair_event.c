/* What the events of a pair reach: the one seat's own, and those of the others. */
#include "pair_tally.h"

#include <stddef.h>

static const struct {
    enum refusal refusal;
    enum kind kind;
    enum pair_item item;
} refusals[] = {
    {REFUSAL_NUMBER_ABOVE, KIND_READ_REGISTER, PAIR_REFUSED_2_READ},
    {REFUSAL_NUMBER_ABOVE, KIND_WRITE_REGISTER, PAIR_REFUSED_2_WRITE},
    {REFUSAL_NO_DIVISOR, KIND_ARRIVAL, PAIR_REFUSED_5_ARRIVAL},
    {REFUSAL_NO_DIVISOR, KIND_CHARACTER_TIME, PAIR_REFUSED_5_TIME},
    {REFUSAL_MARKS_ABOVE, KIND_ARRIVAL, PAIR_REFUSED_6},
    {REFUSAL_LEVELS_ABOVE, KIND_MODEM_INPUTS, PAIR_REFUSED_7},
    {REFUSAL_DATA_BEYOND, KIND_ARRIVAL, PAIR_REFUSED_16},
    {REFUSAL_PARITY_OFF, KIND_ARRIVAL, PAIR_REFUSED_17},
    {REFUSAL_BREAK_WITH_DATA, KIND_ARRIVAL, PAIR_REFUSED_18},
    {REFUSAL_ARRIVED_FULL, KIND_ARRIVAL, PAIR_REFUSED_19_ARRIVAL},
    {REFUSAL_ARRIVED_FULL, KIND_CHARACTER_TIME, PAIR_REFUSED_19_TIME},
};

static enum pair_item behind(enum pair_item item, unsigned further)
{
    return (enum pair_item)((unsigned)item + further);
}

static bool is_full(const struct channel *channel)
{
    return channel->receive.count == channel_places(channel);
}

static bool is_at_most(const struct channel *channel)
{
    return channel->ledger.arrived == LEDGER_MOST;
}

static bool some_neighbour(const struct pair_tally *tally, const struct bench *bench,
                           bool (*is_such)(const struct channel *))
{
    for (unsigned seat = 0; seat < SEATS; seat += 1)
        if (seat != tally->seat && is_such(&bench->seats[seat]))
            return true;
    return false;
}

static void own_refused(struct pair_tally *tally, const struct moment *moment)
{
    enum refusal refusal = moment->outcome.refusal;
    bool alone = !some_neighbour(tally, moment->before, is_at_most);
    for (size_t i = 0; i < sizeof refusals / sizeof refusals[0]; i += 1)
        pair_tally_if(tally,
                      refusals[i].refusal == refusal && refusals[i].kind == moment->event.kind,
                      refusals[i].item);
    pair_tally_if(tally, refusal == REFUSAL_ARRIVED_FULL && alone, PAIR_MOST_ALONE);
}

static void own_letter(struct pair_tally *tally, const struct moment *moment)
{
    const struct channel *before = &moment->before->seats[tally->seat];
    bool fifo = channel_in_fifo_mode(before);
    bool marked = moment->outcome.marks != 0;
    pair_tally_if(tally, !fifo && marked, PAIR_LETTER_16450);
    pair_tally_if(tally, fifo && marked, PAIR_LETTER_FIFO);
    pair_tally_if(tally, moment->outcome.behind > 0, PAIR_LETTER_BEHIND);
    pair_tally_if(tally, queue_is_empty(&before->receive), PAIR_LETTER_EMPTY);
}

static void own_time(struct pair_tally *tally, const struct moment *moment)
{
    bool inside = channel_in_loopback(&moment->before->seats[tally->seat]);
    unsigned answer = moment->outcome.answer;
    bool beside = some_neighbour(tally, moment->before, channel_in_loopback);
    pair_tally_if(tally, answer < ANSWER_IDLE, PAIR_SENT);
    pair_tally_if(tally, answer == ANSWER_BREAK, PAIR_BREAK);
    pair_tally_if(tally, answer == ANSWER_IDLE && !inside, PAIR_IDLE);
    pair_tally_if(tally, answer < ANSWER_IDLE && beside, PAIR_INSIDE_BESIDE);
}

static void own_ledger(struct pair_tally *tally, const struct moment *moment)
{
    const struct channel *was = &moment->before->seats[tally->seat];
    const struct channel *is = &moment->after->seats[tally->seat];
    bool received = is->ledger.arrived != was->ledger.arrived;
    bool lost = is->ledger.lost != was->ledger.lost;
    bool dropped = is->ledger.dropped != was->ledger.dropped;
    bool reset = moment->event.kind == KIND_MASTER_RESET;
    pair_tally_if(tally, received && channel_in_loopback(was), PAIR_INSIDE_RECEIVED);
    pair_tally_if(tally, lost, PAIR_ARRIVAL_LOST);
    pair_tally_if(tally, dropped && !reset, PAIR_DROPPED);
    pair_tally_if(tally, dropped && reset, PAIR_DROPPED_RESET);
    pair_tally_if(tally, received && some_neighbour(tally, moment->before, is_at_most),
                  PAIR_MOST_BESIDE);
    pair_tally_if(tally, received && !lost && some_neighbour(tally, moment->before, is_full),
                  PAIR_FULL_BESIDE);
}

static void own_accepted(struct pair_tally *tally, const struct moment *moment)
{
    pair_tally_if(tally, true, behind(PAIR_KIND_0, moment->event.kind));
    pair_tally_if(tally, !controller_ready(&moment->before->controller), PAIR_NOT_READY);
    if (moment->outcome.is_letter)
        own_letter(tally, moment);
    if (moment->event.kind == KIND_CHARACTER_TIME)
        own_time(tally, moment);
    own_ledger(tally, moment);
}

static void own_event(struct pair_tally *tally, const struct moment *moment)
{
    const struct channel *before = &moment->before->seats[tally->seat];
    bool was = channel_line(before);
    bool is = channel_line(&moment->after->seats[tally->seat]);
    pair_tally_if(tally, true, behind(PAIR_SEAT_0, tally->seat));
    pair_tally_if(tally, channel_in_loopback(before), PAIR_INSIDE);
    pair_tally_if(tally, is, PAIR_LINE_HIGH);
    pair_tally_if(tally, !is, PAIR_LINE_LOW);
    pair_tally_if(tally, !was && is, PAIR_LINE_RISES);
    pair_tally_if(tally, was && !is, PAIR_LINE_FALLS);
    if (moment->outcome.refusal == REFUSAL_NONE)
        own_accepted(tally, moment);
    else
        own_refused(tally, moment);
}

static void grant(struct pair_tally *tally, enum side side, const struct controller *before)
{
    bool last = before->automatic_end && before->automatic_rotation;
    if (controller_grantable(before) != tally->seat)
        return;
    pair_tally_if(tally, side == SIDE_LEFT, PAIR_GRANT_LEFT);
    pair_tally_if(tally, side == SIDE_RIGHT, PAIR_GRANT_RIGHT);
    pair_tally_if(tally, !before->level_mode, PAIR_GRANT_EDGE);
    pair_tally_if(tally, before->level_mode, PAIR_GRANT_LEVEL);
    pair_tally_if(tally, last, PAIR_GRANT_LAST);
}

static void controller_written(struct pair_tally *tally, const struct moment *moment)
{
    const struct controller *was = &moment->before->controller;
    const struct controller *is = &moment->after->controller;
    unsigned ended = was->in_service & ~is->in_service;
    unsigned cleared = was->latches & ~is->latches;
    pair_tally_if(tally, controller_ready(is) && (ended >> tally->seat & 1U) != 0, PAIR_ENDED);
    pair_tally_if(tally, (cleared >> tally->seat & 1U) != 0, PAIR_LATCH_CLEARED);
}

static void neighbour_event(struct pair_tally *tally, const struct moment *moment)
{
    unsigned seat = moment->event.seat;
    pair_tally_if(tally, seat == (tally->seat + SEATS - 1U) % SEATS, PAIR_BESIDE_BEFORE);
    pair_tally_if(tally, seat == (tally->seat + 1U) % SEATS, PAIR_BESIDE_BEHIND);
    pair_tally_if(tally, moment->outcome.refusal == REFUSAL_NONE,
                  behind(PAIR_BESIDE_KIND_0, moment->event.kind));
}

static void other_event(struct pair_tally *tally, enum side side, const struct moment *moment)
{
    struct event event = moment->event;
    enum refusal refusal = moment->outcome.refusal;
    bool of_controller = event.kind > KIND_MASTER_RESET && event.kind <= KIND_ACKNOWLEDGE;
    bool same = event.seat % SEATS == tally->seat;
    pair_tally_if(tally, refusal == REFUSAL_SEAT_ABOVE && same, PAIR_CUT_SEAT);
    pair_tally_if(tally, of_controller && event.seat == tally->seat, PAIR_UNUSED_SEAT);
    pair_tally_if(tally, refusal == REFUSAL_KIND_ABOVE, PAIR_BESIDE_3);
    pair_tally_if(tally, refusal == REFUSAL_NOT_READY, PAIR_BESIDE_8);
    pair_tally_if(tally, refusal == REFUSAL_NOT_SERVED, PAIR_BESIDE_9);
    pair_tally_if(tally, refusal == REFUSAL_ARRIVED_FULL, PAIR_BESIDE_19);
    if (event.kind <= KIND_CHARACTER_TIME && event.seat < SEATS)
        neighbour_event(tally, moment);
    if (event.kind == KIND_ACKNOWLEDGE && refusal == REFUSAL_NONE)
        grant(tally, side, &moment->before->controller);
    if (event.kind == KIND_WRITE_CONTROLLER)
        controller_written(tally, moment);
}

void pair_tally_event(struct pair_tally *tally, enum side side, const struct moment *moment)
{
    bool of_seat = moment->event.kind <= KIND_CHARACTER_TIME && moment->event.seat == tally->seat;
    if (of_seat || moment->event.kind == KIND_MASTER_RESET)
        own_event(tally, moment);
    else
        other_event(tally, side, moment);
}
