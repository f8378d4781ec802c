/* Ticket 5: "an arrival leaves a count of 4 at 4 and sets a smaller one to 0". */
#include "tally.h"

static void tally_arrival(struct tally *tally, const struct moment *moment)
{
    const struct channel *before = &moment->before->seats[moment->event.seat];
    const struct channel *after = &moment->after->seats[moment->event.seat];
    bool fifo = channel_in_fifo_mode(before);
    bool room = before->receive.count < PLACES_FIFO;
    bool stands = before->timeout_count == 4;
    bool named = channel_cause(before) == CAUSE_TIMEOUT;
    bool stays = named && channel_cause(after) == CAUSE_TIMEOUT;
    bool high = stays && channel_line(after);
    bool level = moment->before->controller.level_mode;
    tally_if(tally, fifo && room, tally_behind(TALLY_ROOM_AT_0, before->timeout_count));
    tally_if(tally, fifo && !room, tally_behind(TALLY_LOST_AT_0, before->timeout_count));
    tally_if(tally, stands && (before->ier & IER_DATA) == 0, TALLY_TIMEOUT_DISABLED);
    tally_if(tally, stays, TALLY_TIMEOUT_STAYS);
    tally_if(tally, high && !level, TALLY_TIMEOUT_LINE_EDGE);
    tally_if(tally, high && level, TALLY_TIMEOUT_LINE_LEVEL);
    tally_if(tally, named && channel_cause(after) == CAUSE_DATA, TALLY_TIMEOUT_TO_TRIGGER);
}

/* What comes next to a time-out that an arrival has left. */
static void tally_left(struct tally *tally, const struct moment *moment)
{
    const struct channel *before = &moment->before->seats[moment->event.seat];
    const struct channel *after = &moment->after->seats[moment->event.seat];
    bool read = moment->event.kind == KIND_READ_REGISTER;
    bool write = moment->event.kind == KIND_WRITE_REGISTER;
    unsigned number = moment->event.number;
    bool taken = read && after->receive.count < before->receive.count;
    bool shown = write && channel_cause(before) != CAUSE_TIMEOUT
        && channel_cause(after) == CAUSE_TIMEOUT;
    tally_if(tally, read && number == 2 && moment->outcome.answer == 0xCC, TALLY_LEFT_CC);
    tally_if(tally, read && number == 2 && moment->outcome.answer == 0xC4, TALLY_LEFT_C4);
    tally_if(tally, read && number == 5, TALLY_LEFT_LSR);
    tally_if(tally, taken, TALLY_LEFT_RBR);
    tally_if(tally, shown && number == 1, TALLY_LEFT_IER);
    tally_if(tally, shown && number == 2, TALLY_LEFT_TRIGGER);
    tally_if(tally, write && number == 2 && queue_is_empty(&after->receive), TALLY_LEFT_EMPTIED);
    tally_if(tally, moment_arrives(moment), TALLY_LEFT_ARRIVAL);
    tally_if(tally, moment->event.kind == KIND_CHARACTER_TIME, TALLY_LEFT_TIME);
}

void tally_timeout(struct tally *tally, const struct moment *moment)
{
    unsigned seat = moment->event.seat;
    /* One that comes in: "an arrival changes nothing" in loopback. */
    bool arrival = moment_arrives(moment);
    bool stands = moment->before->seats[seat].timeout_count == 4;
    /* Between two events of a seat only a master reset or a new stream changes its count, to 0. */
    bool left = tally->left[seat] && stands;
    if (arrival)
        tally_arrival(tally, moment);
    if (left)
        tally_left(tally, moment);
    tally->left[seat] = (left || (arrival && stands))
        && moment->after->seats[seat].timeout_count == 4;
}
