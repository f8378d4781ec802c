/* Ticket 6: "hands over its marks and how many remain behind it". */
#include "tally.h"

/* "in 16450 mode the marks it arrived with, even after LSR was read" */
static void tally_16450(struct tally *tally, const struct moment *moment)
{
    const struct channel *before = &moment->before->seats[moment->event.seat];
    const struct watch *watch = &tally->watches.seats[moment->event.seat];
    unsigned marks = moment->outcome.marks;
    unsigned kept = before->kept_marks;
    bool replacing = watch->replacing;
    unsigned replaced = watch->replaced_marks;
    tally_if(tally, true, tally_behind(TALLY_LETTER_16450_0, marks));
    tally_if(tally, (marks & ~kept) != 0, TALLY_LETTER_AFTER_LSR);
    tally_if(tally, marks != 0 && (kept & ~marks) != 0, TALLY_LETTER_KEPT_MORE);
    tally_if(tally, marks == 0 && kept != 0, TALLY_LETTER_KEPT_ALONE);
    tally_if(tally, replacing && marks == 0 && replaced != 0, TALLY_LETTER_FOR_MARKED);
    tally_if(tally, replacing && marks != 0 && replaced == 0, TALLY_LETTER_FOR_UNMARKED);
    tally_if(tally, replacing && marks != 0 && replaced != 0 && marks != replaced,
             TALLY_LETTER_FOR_OTHER);
}

/* "in FIFO mode marks that an LSR read cleared stay cleared" */
static void tally_fifo(struct tally *tally, const struct moment *moment)
{
    const struct channel *before = &moment->before->seats[moment->event.seat];
    const struct channel *after = &moment->after->seats[moment->event.seat];
    const struct watch *watch = &tally->watches.seats[moment->event.seat];
    unsigned marks = moment->outcome.marks;
    unsigned behind = moment->outcome.behind;
    bool cleared = watch->cleared && marks == 0;
    bool marked_behind = queue_has_mark(&after->receive);
    tally_if(tally, true, tally_behind(TALLY_LETTER_FIFO_0, marks));
    tally_if(tally, true, tally_behind(TALLY_BEHIND_0, behind));
    tally_if(tally, behind == PLACES_FIFO - 1 && before->overrun, TALLY_BEHIND_LOST);
    tally_if(tally, cleared, TALLY_LETTER_CLEARED);
    tally_if(tally, cleared && marked_behind, TALLY_LETTER_CLEARED_FIRST);
    tally_if(tally, (watch->spared & 1U) != 0 && marks != 0, TALLY_LETTER_SPARED);
    tally_if(tally, marks == 0 && marked_behind, TALLY_LETTER_UNMARKED_FIRST);
}

/* "From an empty queue: no marks, none behind." */
static void tally_empty(struct tally *tally, const struct moment *moment)
{
    const struct channel *before = &moment->before->seats[moment->event.seat];
    const struct watch *watch = &tally->watches.seats[moment->event.seat];
    bool fifo = channel_in_fifo_mode(before);
    bool marked = watch->taken_marks != 0;
    bool none = moment->outcome.marks == 0 && moment->outcome.behind == 0;
    tally_if(tally, none && before->last_byte_read != 0, TALLY_EMPTY_BYTE);
    tally_if(tally, none && before->kept_marks != 0, TALLY_EMPTY_KEPT);
    tally_if(tally, none && marked && !fifo, TALLY_EMPTY_16450);
    tally_if(tally, none && marked && fifo, TALLY_EMPTY_FIFO);
    tally_if(tally, none && watch->emptied, TALLY_EMPTY_BY_FCR);
    tally_if(tally, none && watch->reset, TALLY_EMPTY_BY_RESET);
}

static void tally_told(struct tally *tally, const struct moment *moment)
{
    const struct channel *before = &moment->before->seats[moment->event.seat];
    bool parity_off = (before->lcr & LCR_PARITY) == 0;
    bool parity = (moment->outcome.marks & MARK_PARITY) != 0;
    tally_if(tally, parity && parity_off, TALLY_LETTER_PARITY_OFF);
    tally_if(tally, channel_divisor_is_zero(before), TALLY_LETTER_DIVISOR_0);
    if (queue_is_empty(&before->receive))
        tally_empty(tally, moment);
    else if (channel_in_fifo_mode(before))
        tally_fifo(tally, moment);
    else
        tally_16450(tally, moment);
}

void tally_letter(struct tally *tally, const struct moment *moment)
{
    struct event event = moment->event;
    bool read_0 = event.kind == KIND_READ_REGISTER && event.number == 0;
    bool plain = read_0 && !moment->outcome.is_letter;
    bool refused = moment->outcome.refusal != REFUSAL_NONE;
    tally_if(tally, plain && refused, TALLY_LETTER_REFUSED);
    if (plain && !refused) {
        const struct queue *receive = &moment->before->seats[event.seat].receive;
        tally_if(tally, receive->characters[0].marks != 0, TALLY_DLL_MARKED);
        tally_if(tally, receive->count > 1, TALLY_DLL_BEHIND);
    }
    if (moment->outcome.is_letter)
        tally_told(tally, moment);
    watches_event(&tally->watches, moment);
}
