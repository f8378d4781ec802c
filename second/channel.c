/* What a channel shows: line status, modem status, the cause named, the line. */
#include "channel.h"

bool channel_in_fifo_mode(const struct channel *channel)
{
    return (channel->fcr & FCR_FIFO) != 0;
}

unsigned channel_places(const struct channel *channel)
{
    return channel_in_fifo_mode(channel) ? PLACES_FIFO : PLACES_16450;
}

unsigned channel_trigger(const struct channel *channel)
{
    /* "bits 7-6 choose trigger 1, 4, 8 or 14" */
    static const unsigned triggers[4] = {1, 4, 8, 14};
    return triggers[channel->fcr >> 6 & 3U];
}

bool channel_divisor_is_zero(const struct channel *channel)
{
    return channel->divisor_low == 0 && channel->divisor_high == 0;
}

unsigned channel_largest_character(const struct channel *channel)
{
    return (0x20U << (channel->lcr & 3U)) - 1U;
}

/* "Bits 2-4 are the kept marks in 16450 mode, the oldest character's in FIFO
   mode (none: 0)." */
static unsigned shown_marks(const struct channel *channel)
{
    if (!channel_in_fifo_mode(channel))
        return channel->kept_marks;
    return queue_is_empty(&channel->receive) ? 0 : channel->receive.characters[0].marks;
}

unsigned channel_lsr(const struct channel *channel)
{
    /* The marks 1, 2, 4 stand in LSR bits 2, 3, 4. */
    unsigned lsr = shown_marks(channel) << 2;
    if (!queue_is_empty(&channel->receive))
        lsr |= LSR_DATA;
    if (channel->overrun)
        lsr |= LSR_OVERRUN;
    if (queue_is_empty(&channel->transmit))
        lsr |= LSR_TRANSMIT_EMPTY;
    if (queue_is_empty(&channel->transmit) && !channel->shift_full)
        lsr |= LSR_ALL_EMPTY;
    if (channel_in_fifo_mode(channel) && queue_has_mark(&channel->receive))
        lsr |= LSR_SOME_MARK;
    return lsr;
}

bool channel_in_loopback(const struct channel *channel)
{
    return (channel->mcr & MCR_LOOP) != 0;
}

/* "DTR, RTS, OUT1 and OUT2 feed DSR, CTS, RI and DCD" */
static unsigned inputs_fed(unsigned mcr)
{
    unsigned inputs = 0;
    if ((mcr & MCR_DTR) != 0)
        inputs |= LEVEL_DSR;
    if ((mcr & MCR_RTS) != 0)
        inputs |= LEVEL_CTS;
    if ((mcr & MCR_OUT1) != 0)
        inputs |= LEVEL_RI;
    if ((mcr & MCR_OUT2) != 0)
        inputs |= LEVEL_DCD;
    return inputs;
}

unsigned channel_inputs(const struct channel *channel)
{
    return channel_in_loopback(channel) ? inputs_fed(channel->mcr) : channel->modem_levels;
}

void channel_note_changes(struct channel *channel, unsigned inputs_before)
{
    unsigned inputs = channel_inputs(channel);
    unsigned changed = inputs_before ^ inputs;
    unsigned fallen = inputs_before & ~inputs;
    /* "bits 0, 1, 3 set when CTS, DSR, DCD change; bit 2 when RI goes from
       active to inactive" */
    channel->modem_changes |= changed & (LEVEL_CTS | LEVEL_DSR | LEVEL_DCD);
    channel->modem_changes |= fallen & LEVEL_RI;
}

unsigned channel_msr(const struct channel *channel)
{
    /* "bits 4-7 CTS, DSR, RI, DCD": the order of the levels 1, 2, 4, 8. */
    return channel_inputs(channel) << 4 | channel->modem_changes;
}

bool channel_trigger_reached(const struct channel *channel)
{
    return channel->receive.count >= channel_trigger(channel);
}

/* "04 data, which is a character in 16450 mode and the trigger reached in
   FIFO mode" */
static bool data_stands(const struct channel *channel)
{
    if (channel_in_fifo_mode(channel))
        return channel_trigger_reached(channel);
    return !queue_is_empty(&channel->receive);
}

/* "IIR names the first enabled cause" */
unsigned channel_cause(const struct channel *channel)
{
    unsigned ier = channel->ier;
    if ((ier & IER_LINE_STATUS) != 0 && (channel_lsr(channel) & (LSR_OVERRUN | LSR_MARKS)) != 0)
        return CAUSE_LINE_STATUS;
    if ((ier & IER_DATA) != 0 && data_stands(channel))
        return CAUSE_DATA;
    if ((ier & IER_DATA) != 0 && channel->timeout_count == 4)
        return CAUSE_TIMEOUT;
    if ((ier & IER_HOLDING_EMPTY) != 0 && channel->holding_empty)
        return CAUSE_HOLDING_EMPTY;
    if ((ier & IER_MODEM) != 0 && channel->modem_changes != 0)
        return CAUSE_MODEM;
    return CAUSE_NONE;
}

void channel_figures(const struct channel *channel, uint32_t figures[FIGURES])
{
    figures[FIGURE_ARRIVED] = channel->ledger.arrived;
    figures[FIGURE_READ] = channel->ledger.read;
    figures[FIGURE_LOST] = channel->ledger.lost;
    figures[FIGURE_DROPPED] = channel->ledger.dropped;
    figures[FIGURE_QUEUED] = channel->receive.count;
}

bool channel_line(const struct channel *channel)
{
    return channel_cause(channel) != CAUSE_NONE && (channel->mcr & MCR_LINE) != 0;
}
