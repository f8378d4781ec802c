/* Reads and writes of a channel's eight registers. */
#include "channel.h"

static struct outcome read_rbr(struct channel *channel)
{
    /* "From an empty queue it gives the last byte read (0 at first) and
       changes nothing." Ticket 6: "no marks, none behind" */
    if (queue_is_empty(&channel->receive))
        return accepted_letter(channel->last_byte_read, 0, 0);
    struct character oldest = queue_take_oldest(&channel->receive);
    channel->last_byte_read = oldest.data;
    channel->ledger.read += 1;
    channel->timeout_count = 0;
    /* "also hands over its marks and how many remain behind it" */
    return accepted_letter(oldest.data, oldest.marks, channel->receive.count);
}

static unsigned read_iir(struct channel *channel)
{
    unsigned cause = channel_cause(channel);
    /* "A read that named 02 clears that flag." */
    if (cause == CAUSE_HOLDING_EMPTY)
        channel->holding_empty = false;
    /* "In FIFO mode C0 is added." */
    return channel_in_fifo_mode(channel) ? 0xC0U + cause : cause;
}

static unsigned read_lsr(struct channel *channel)
{
    unsigned lsr = channel_lsr(channel);
    /* "A read clears overrun, and the marks it showed, after answering." In
       FIFO mode it showed the oldest character's; characters[0] of an empty
       queue is 0 already. In 16450 mode the character keeps "the marks it
       arrived with, even after LSR was read". */
    channel->overrun = false;
    if (channel_in_fifo_mode(channel))
        channel->receive.characters[0].marks = 0;
    else
        channel->kept_marks = 0;
    return lsr;
}

static unsigned read_msr(struct channel *channel)
{
    unsigned msr = channel_msr(channel);
    /* "A read clears bits 0-3 after answering." */
    channel->modem_changes = 0;
    return msr;
}

struct outcome channel_read(struct channel *channel, unsigned number)
{
    bool divisor = (channel->lcr & LCR_DIVISOR) != 0;
    switch (number) {
    case 0: return divisor ? accepted(channel->divisor_low) : read_rbr(channel);
    case 1: return accepted(divisor ? channel->divisor_high : channel->ier);
    case 2: return accepted(read_iir(channel));
    case 3: return accepted(channel->lcr);
    case 4: return accepted(channel->mcr);
    case 5: return accepted(read_lsr(channel));
    case 6: return accepted(read_msr(channel));
    case 7: return accepted(channel->scratch);
    default: return refused(REFUSAL_NUMBER_ABOVE);
    }
}

static void write_thr(struct channel *channel, unsigned byte)
{
    bool full = channel->transmit.count == channel_places(channel);
    channel->holding_empty = false;
    /* "Full: 16450 mode replaces, FIFO mode drops it." */
    if (full && channel_in_fifo_mode(channel))
        return;
    if (full)
        queue_make_empty(&channel->transmit);
    queue_add(&channel->transmit, (struct character){byte, 0});
}

static void write_ier(struct channel *channel, unsigned byte)
{
    /* "IER write that turns bit 1 from 0 to 1 with the transmit queue empty
       sets the holding-empty flag." */
    bool turned_on = (byte & ~channel->ier & IER_HOLDING_EMPTY) != 0;
    if (turned_on && queue_is_empty(&channel->transmit))
        channel->holding_empty = true;
    /* "IER keeps its low 4 bits" */
    channel->ier = byte & 0x0FU;
}

static void empty_receive(struct channel *channel)
{
    /* Ticket 8: "dropped by emptying" */
    channel->ledger.dropped += channel->receive.count;
    queue_make_empty(&channel->receive);
    /* "Emptying the receive queue sets the time-out count to 0." */
    channel->timeout_count = 0;
}

static void empty_transmit(struct channel *channel)
{
    /* "Emptying a transmit queue that held something sets the holding-empty
       flag." */
    if (!queue_is_empty(&channel->transmit))
        channel->holding_empty = true;
    queue_make_empty(&channel->transmit);
}

static void write_fcr(struct channel *channel, unsigned byte)
{
    bool fifo = (byte & FCR_FIFO) != 0;
    bool changed = fifo != channel_in_fifo_mode(channel);
    /* Bits 1 and 2 count only with bit 0 set: "Bit 0 set: .. bit 1 empties
       the receive queue, bit 2 the transmit queue." */
    if (changed || (fifo && (byte & FCR_EMPTY_RECEIVE) != 0))
        empty_receive(channel);
    if (changed || (fifo && (byte & FCR_EMPTY_TRANSMIT) != 0))
        empty_transmit(channel);
    if (changed)
        channel->kept_marks = 0;
    /* "Bit 0 clear: .. all FCR bits 0", else "bits 7-6 choose trigger ..,
       bit 3 is stored". */
    channel->fcr = fifo ? byte & 0xC9U : 0;
}

static void write_mcr(struct channel *channel, unsigned byte)
{
    unsigned inputs_before = channel_inputs(channel);
    /* "MCR its low 5" */
    channel->mcr = byte & 0x1FU;
    /* "with change bits as for real inputs, also where a write of MCR enters or
       leaves". Outside loopback the inputs are the same before and after. */
    channel_note_changes(channel, inputs_before);
}

/* "With LCR bit 7 set, 0 and 1 are DLL and DLM, for reads and writes." */
static void write_0_or_1(struct channel *channel, unsigned number, unsigned byte)
{
    bool divisor = (channel->lcr & LCR_DIVISOR) != 0;
    if (divisor && number == 0)
        channel->divisor_low = byte;
    else if (divisor)
        channel->divisor_high = byte;
    else if (number == 0)
        write_thr(channel, byte);
    else
        write_ier(channel, byte);
}

struct outcome channel_write(struct channel *channel, unsigned number, unsigned byte)
{
    switch (number) {
    case 0:
    case 1: write_0_or_1(channel, number, byte); return accepted(0);
    case 2: write_fcr(channel, byte); return accepted(0);
    case 3: channel->lcr = byte; return accepted(0);
    case 4: write_mcr(channel, byte); return accepted(0);
    /* "Writes to LSR and MSR are accepted and change nothing." */
    case 5:
    case 6: return accepted(0);
    case 7: channel->scratch = byte; return accepted(0);
    default: return refused(REFUSAL_NUMBER_ABOVE);
    }
}
