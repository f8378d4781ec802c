/* What happens to a channel from outside: arrival, modem inputs, character
   time, master reset. */
#include "channel.h"

/* "6 is now marks above 7 only; 16 data beyond the word length, 17 parity mark
   with parity off, 18 break with data; tried in this order" */
static enum refusal refusal_of_arrival(const struct channel *channel, struct character character)
{
    if (character.marks > 7)
        return REFUSAL_MARKS_ABOVE;
    if (character.data > channel_largest_character(channel))
        return REFUSAL_DATA_BEYOND;
    if ((character.marks & MARK_PARITY) != 0 && (channel->lcr & LCR_PARITY) == 0)
        return REFUSAL_PARITY_OFF;
    /* Document 01: "break with data not 0" */
    if ((character.marks & MARK_BREAK) != 0 && character.data != 0)
        return REFUSAL_BREAK_WITH_DATA;
    return REFUSAL_NONE;
}

/* What comes in, from the wire or in loopback from the shift register. */
static void receive(struct channel *channel, struct character character)
{
    bool fifo = channel_in_fifo_mode(channel);
    bool full = channel->receive.count == channel_places(channel);
    channel->ledger.arrived += 1;
    if (full)
        channel->overrun = true;
    /* Ticket 8: the new one is lost, or the old: "Replaced characters count as
       overrun". */
    if (full)
        channel->ledger.lost += 1;
    /* "Full in 16450 mode: the new one replaces the old" */
    if (full && !fifo)
        queue_make_empty(&channel->receive);
    /* "Full in FIFO mode: the new one is lost" */
    if (!full || !fifo)
        queue_add(&channel->receive, character);
    if (!fifo)
        channel->kept_marks |= character.marks;
    /* Ticket 5: "an arrival leaves a count of 4 at 4 and sets a smaller one to 0" */
    if (channel->timeout_count < 4)
        channel->timeout_count = 0;
}

/* Ticket 8: "19, last in order, where arrived would pass its largest value" */
static bool arrived_is_full(const struct channel *channel)
{
    return channel->ledger.arrived == LEDGER_MOST;
}

struct outcome channel_arrival(struct channel *channel, struct character character)
{
    if (channel_divisor_is_zero(channel))
        return refused(REFUSAL_NO_DIVISOR);
    enum refusal refusal = refusal_of_arrival(channel, character);
    if (refusal != REFUSAL_NONE)
        return refused(refusal);
    /* Ticket 7: "arrivals .. are checked as before, but an arrival changes nothing".
       Ticket 8: "an outside arrival in loopback does not" count as arrived. */
    if (channel_in_loopback(channel))
        return accepted(0);
    if (arrived_is_full(channel))
        return refused(REFUSAL_ARRIVED_FULL);
    receive(channel, character);
    return accepted(0);
}

struct outcome channel_modem_inputs(struct channel *channel, unsigned levels)
{
    if (levels > 15)
        return refused(REFUSAL_LEVELS_ABOVE);
    unsigned inputs_before = channel_inputs(channel);
    channel->modem_levels = levels;
    /* "modem levels are only remembered": in loopback they are not the inputs,
       which are the same before and after. */
    channel_note_changes(channel, inputs_before);
    return accepted(0);
}

/* "a character in the shift register leaves, cut to the word length" */
static unsigned let_character_leave(struct channel *channel)
{
    if (!channel->shift_full)
        return ANSWER_IDLE;
    unsigned sent = channel->shift_register & channel_largest_character(channel);
    channel->shift_full = false;
    channel->shift_register = 0;
    return sent;
}

/* "the oldest queued moves in, and if the queue is empty by that the
   holding-empty flag is set" */
static void move_oldest_in(struct channel *channel)
{
    if (queue_is_empty(&channel->transmit))
        return;
    channel->shift_register = queue_take_oldest(&channel->transmit).data;
    channel->shift_full = true;
    if (queue_is_empty(&channel->transmit))
        channel->holding_empty = true;
}

/* What goes out on the wire by a character time; ANSWER_IDLE if nothing does. */
static unsigned answer_to_time(const struct channel *channel, unsigned sent)
{
    /* Ticket 7: "the answer is 100, even with break set" */
    if (channel_in_loopback(channel))
        return ANSWER_IDLE;
    /* "With LCR bit 6 set the answer is 200, and all else goes on." */
    return (channel->lcr & LCR_BREAK) != 0 ? ANSWER_BREAK : sent;
}

struct outcome channel_character_time(struct channel *channel)
{
    if (channel_divisor_is_zero(channel))
        return refused(REFUSAL_NO_DIVISOR);
    /* Ticket 8: "a loopback reception counts as arrived". "nothing changes": not
       even the shift register. */
    bool receives = channel_in_loopback(channel) && channel->shift_full;
    if (receives && arrived_is_full(channel))
        return refused(REFUSAL_ARRIVED_FULL);
    unsigned sent = let_character_leave(channel);
    /* Ticket 7: "the character that leaves is received at once, cut to the word
       length and without marks, before the next one moves in" */
    if (receives)
        receive(channel, (struct character){sent, 0});
    move_oldest_in(channel);
    /* "in FIFO mode with a character in the receive queue the time-out count
       rises, up to 4" */
    if (channel_in_fifo_mode(channel) && !queue_is_empty(&channel->receive)
        && channel->timeout_count < 4)
        channel->timeout_count += 1;
    return accepted(answer_to_time(channel, sent));
}

void channel_master_reset(struct channel *channel)
{
    /* Ticket 8: "since power-up", and "a master reset drops". */
    struct ledger ledger = channel->ledger;
    ledger.dropped += channel->receive.count;
    /* "divisor, scratch, modem levels and last byte read kept". The inputs may
       be others after it, by which "a master reset sets none". */
    *channel = (struct channel){
        .divisor_low = channel->divisor_low,
        .divisor_high = channel->divisor_high,
        .scratch = channel->scratch,
        .modem_levels = channel->modem_levels,
        .last_byte_read = channel->last_byte_read,
        .ledger = ledger,
    };
}
