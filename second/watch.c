#include "watch.h"

bool moment_arrives(const struct moment *moment)
{
    return moment->event.kind == KIND_ARRIVAL
        && !channel_in_loopback(&moment->before->seats[moment->event.seat]);
}

bool moment_receives(const struct moment *moment)
{
    const struct channel *before = &moment->before->seats[moment->event.seat];
    bool leaves = moment->event.kind == KIND_CHARACTER_TIME && before->shift_full;
    return moment_arrives(moment) || (leaves && channel_in_loopback(before));
}

/* All the places of a queue. */
static unsigned all_of(const struct queue *queue)
{
    return (1U << queue->count) - 1U;
}

static void watch_received(struct watch *watch, const struct channel *before)
{
    bool full = before->receive.count == channel_places(before);
    watch->emptied = false;
    watch->reset = false;
    if (!full || channel_in_fifo_mode(before))
        return;
    watch->replacing = true;
    watch->replaced_marks = before->receive.characters[0].marks;
    watch->restored = 0;
}

static void watch_lsr(struct watch *watch, const struct channel *before)
{
    if (!channel_in_fifo_mode(before))
        return;
    if (before->receive.characters[0].marks != 0)
        watch->cleared = true;
    watch->spared = all_of(&before->receive) & ~1U;
}

static void watch_letter(struct watch *watch, const struct channel *before)
{
    if (queue_is_empty(&before->receive))
        return;
    watch->taken_marks = before->receive.characters[0].marks;
    watch->cleared = false;
    watch->restored_cleared = false;
    watch->spared >>= 1;
    watch->restored >>= 1;
    watch->replacing = false;
}

/* What is said of a queue's characters ends with them. */
static void watch_emptied(struct watch *watch)
{
    watch->cleared = false;
    watch->restored_cleared = false;
    watch->spared = 0;
    watch->restored = 0;
    watch->replacing = false;
}

static void watch_seat(struct watch *watch, const struct moment *moment)
{
    const struct channel *before = &moment->before->seats[moment->event.seat];
    const struct channel *after = &moment->after->seats[moment->event.seat];
    bool reads = moment->event.kind == KIND_READ_REGISTER;
    bool writes = moment->event.kind == KIND_WRITE_REGISTER;
    if (moment_receives(moment))
        watch_received(watch, before);
    if (reads && moment->event.number == 5)
        watch_lsr(watch, before);
    if (reads && moment->event.number == 0 && (before->lcr & LCR_DIVISOR) == 0)
        watch_letter(watch, before);
    if (writes && queue_is_empty(&after->receive) && queue_has_mark(&before->receive))
        watch->emptied = true;
    if (queue_is_empty(&after->receive))
        watch_emptied(watch);
}

void watches_event(struct watches *watches, const struct moment *moment)
{
    if (moment->outcome.refusal != REFUSAL_NONE)
        return;
    if (moment->event.kind <= KIND_CHARACTER_TIME)
        watch_seat(&watches->seats[moment->event.seat], moment);
    if (moment->event.kind != KIND_MASTER_RESET)
        return;
    for (unsigned seat = 0; seat < SEATS; seat += 1) {
        if (queue_has_mark(&moment->before->seats[seat].receive))
            watches->seats[seat].reset = true;
        watch_emptied(&watches->seats[seat]);
    }
}

void watches_restore(struct watches *watches, const struct bench *bench)
{
    for (unsigned seat = 0; seat < SEATS; seat += 1) {
        struct watch *watch = &watches->seats[seat];
        watch->restored = all_of(&bench->seats[seat].receive);
        watch->restored_cleared = watch->cleared;
    }
}
