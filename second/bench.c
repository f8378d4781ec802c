#include "bench.h"

struct bench bench_at_power_up(void)
{
    return (struct bench){.controller = controller_at_power_up()};
}

unsigned bench_output(const struct bench *bench)
{
    return controller_output(&bench->controller) ? 1 : 0;
}

struct outcome bench_place(const struct bench *bench, unsigned line)
{
    if (line >= LINES)
        return refused(REFUSAL_SEAT_ABOVE);
    return accepted(controller_place(&bench->controller, line));
}

struct ledger_answer bench_ledger(const struct bench *bench, unsigned seat)
{
    struct ledger_answer answer = {0};
    if (seat >= SEATS)
        answer.refusal = REFUSAL_SEAT_ABOVE;
    else
        channel_figures(&bench->seats[seat], answer.figures);
    return answer;
}

unsigned bench_lines(const struct bench *bench)
{
    unsigned lines = 0;
    for (unsigned seat = 0; seat < SEATS; seat += 1)
        if (channel_line(&bench->seats[seat]))
            lines |= 1U << seat;
    return lines;
}

/* "The order is 4, 3, 1, 2": here 3, 1 and 2; the listing
   gives 4, and the channel and the controller give the rest. */
static enum refusal refusal_by_numbers(struct event event)
{
    bool uses_seat = event.kind <= KIND_CHARACTER_TIME;
    bool uses_register = event.kind <= KIND_WRITE_REGISTER;
    bool uses_port = event.kind == KIND_READ_CONTROLLER || event.kind == KIND_WRITE_CONTROLLER;
    if (event.kind > KIND_ACKNOWLEDGE)
        return REFUSAL_KIND_ABOVE;
    if (uses_seat && event.seat >= SEATS)
        return REFUSAL_SEAT_ABOVE;
    if (uses_register && event.number > 7)
        return REFUSAL_NUMBER_ABOVE;
    if (uses_port && event.number > 1)
        return REFUSAL_NUMBER_ABOVE;
    return REFUSAL_NONE;
}

static struct outcome seat_event(struct channel *seat, struct event event)
{
    switch (event.kind) {
    case KIND_READ_REGISTER:
        return channel_read(seat, event.number);
    case KIND_WRITE_REGISTER:
        return channel_write(seat, event.number, event.value);
    case KIND_ARRIVAL:
        return channel_arrival(seat, (struct character){event.value, event.number});
    case KIND_MODEM_INPUTS:
        return channel_modem_inputs(seat, event.value);
    default:
        return channel_character_time(seat);
    }
}

/* "a master reset touches all eight seats" */
static struct outcome master_reset(struct bench *bench)
{
    for (unsigned seat = 0; seat < SEATS; seat += 1)
        channel_master_reset(&bench->seats[seat]);
    return accepted(0);
}

static struct outcome dispatch(struct bench *bench, struct event event)
{
    switch (event.kind) {
    case KIND_MASTER_RESET:
        return master_reset(bench);
    case KIND_READ_CONTROLLER:
        return controller_read(&bench->controller, event.number);
    case KIND_WRITE_CONTROLLER:
        return controller_write(&bench->controller, event.number, event.value);
    case KIND_ACKNOWLEDGE:
        return controller_acknowledge(&bench->controller);
    default:
        return seat_event(&bench->seats[event.seat], event);
    }
}

struct outcome bench_event(struct bench *bench, struct event event)
{
    enum refusal refusal = refusal_by_numbers(event);
    if (refusal != REFUSAL_NONE)
        return refused(refusal);
    struct outcome outcome = dispatch(bench, event);
    /* "Line changes reach the controller's latches in the same event." */
    controller_watch(&bench->controller, bench_lines(bench));
    return outcome;
}
