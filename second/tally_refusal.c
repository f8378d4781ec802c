#include <stddef.h>

#include "tally.h"

/* What is off with an arrival, by the numbers that it could be refused by. */
#define OFF_6 0x1U
#define OFF_16 0x2U
#define OFF_17 0x4U
#define OFF_18 0x8U

static const struct {
    enum refusal refusal;
    unsigned off;
    enum tally_item item;
} arrivals[] = {
    {REFUSAL_NO_DIVISOR, OFF_6, TALLY_REFUSED_5_6},
    {REFUSAL_NO_DIVISOR, OFF_16, TALLY_REFUSED_5_16},
    {REFUSAL_NO_DIVISOR, OFF_17, TALLY_REFUSED_5_17},
    {REFUSAL_NO_DIVISOR, OFF_18, TALLY_REFUSED_5_18},
    {REFUSAL_MARKS_ABOVE, OFF_6, TALLY_REFUSED_6},
    {REFUSAL_MARKS_ABOVE, OFF_6 | OFF_16, TALLY_REFUSED_6_16},
    {REFUSAL_MARKS_ABOVE, OFF_6 | OFF_17, TALLY_REFUSED_6_17},
    {REFUSAL_MARKS_ABOVE, OFF_6 | OFF_18, TALLY_REFUSED_6_18},
    {REFUSAL_MARKS_ABOVE, OFF_6 | OFF_16 | OFF_17, TALLY_REFUSED_6_16_17},
    {REFUSAL_MARKS_ABOVE, OFF_6 | OFF_16 | OFF_18, TALLY_REFUSED_6_16_18},
    {REFUSAL_MARKS_ABOVE, OFF_6 | OFF_17 | OFF_18, TALLY_REFUSED_6_17_18},
    {REFUSAL_MARKS_ABOVE, OFF_6 | OFF_16 | OFF_17 | OFF_18, TALLY_REFUSED_6_16_17_18},
    {REFUSAL_DATA_BEYOND, OFF_16, TALLY_REFUSED_16},
    {REFUSAL_DATA_BEYOND, OFF_16 | OFF_17, TALLY_REFUSED_16_17},
    {REFUSAL_DATA_BEYOND, OFF_16 | OFF_18, TALLY_REFUSED_16_18},
    {REFUSAL_DATA_BEYOND, OFF_16 | OFF_17 | OFF_18, TALLY_REFUSED_16_17_18},
    {REFUSAL_PARITY_OFF, OFF_17, TALLY_REFUSED_17},
    {REFUSAL_PARITY_OFF, OFF_17 | OFF_18, TALLY_REFUSED_17_18},
    {REFUSAL_BREAK_WITH_DATA, OFF_18, TALLY_REFUSED_18},
};

static unsigned what_is_off(const struct channel *seat, struct event event)
{
    unsigned off = 0;
    if (event.number > 7)
        off |= OFF_6;
    if (event.value > channel_largest_character(seat))
        off |= OFF_16;
    if ((event.number & MARK_PARITY) != 0 && (seat->lcr & LCR_PARITY) == 0)
        off |= OFF_17;
    if ((event.number & MARK_BREAK) != 0 && event.value != 0)
        off |= OFF_18;
    return off;
}

static void tally_arrival(struct tally *tally, const struct moment *moment)
{
    static const unsigned first_beyond[4] = {0x20, 0x40, 0x80, 0x100};
    const struct channel *seat = &moment->before->seats[moment->event.seat];
    enum refusal refusal = moment->outcome.refusal;
    struct event event = moment->event;
    unsigned off = what_is_off(seat, event);
    unsigned length = seat->lcr & 3U;
    for (size_t i = 0; i < sizeof arrivals / sizeof arrivals[0]; i += 1)
        tally_if(tally, refusal == arrivals[i].refusal && off == arrivals[i].off,
                 arrivals[i].item);
    tally_if(tally, refusal == REFUSAL_MARKS_ABOVE && event.number == 8, TALLY_EDGE_MARKS_8);
    tally_if(tally, refusal == REFUSAL_DATA_BEYOND && event.value == first_beyond[length],
             tally_behind(TALLY_EDGE_20, length));
    tally_if(tally, refusal == REFUSAL_PARITY_OFF && (off & OFF_17) != 0,
             tally_behind(TALLY_PARITY_000, seat->lcr >> 4 & 3U));
    tally_if(tally, refusal == REFUSAL_BREAK_WITH_DATA && event.value == 1, TALLY_EDGE_BREAK_1);
    if (seat->timeout_count > 0)
        tally_if(tally, true, tally_behind(TALLY_REFUSED_AT_1, seat->timeout_count - 1));
}

static void tally_not_ready(struct tally *tally, const struct moment *moment)
{
    bool write = moment->event.kind == KIND_WRITE_CONTROLLER;
    tally_if(tally, moment->event.kind == KIND_READ_CONTROLLER, TALLY_REFUSED_8_READ);
    tally_if(tally, moment->event.kind == KIND_ACKNOWLEDGE, TALLY_REFUSED_8_ACKNOWLEDGE);
    tally_if(tally, write && moment->event.number == 0, TALLY_REFUSED_8_PORT_0);
    tally_if(tally, write && moment->event.number == 1, TALLY_REFUSED_8_PORT_1);
}

static void tally_unserved(struct tally *tally, const struct moment *moment)
{
    bool port_0 = moment->event.number == 0;
    bool icw1 = (moment->event.value & 0x10U) != 0;
    tally_if(tally, port_0 && icw1, TALLY_REFUSED_9_ICW1);
    tally_if(tally, port_0 && !icw1, TALLY_REFUSED_9_OCW3);
    tally_if(tally, !port_0, TALLY_REFUSED_9_ICW4);
}

void tally_refusal(struct tally *tally, const struct moment *moment)
{
    enum refusal refusal = moment->outcome.refusal;
    struct event event = moment->event;
    bool of_register = refusal == REFUSAL_NUMBER_ABOVE && event.kind <= KIND_WRITE_REGISTER;
    bool of_port = refusal == REFUSAL_NUMBER_ABOVE && event.kind > KIND_WRITE_REGISTER;
    bool of_divisor = refusal == REFUSAL_NO_DIVISOR;
    tally_if(tally, refusal == REFUSAL_SEAT_ABOVE, TALLY_REFUSED_1);
    tally_if(tally, refusal == REFUSAL_SEAT_ABOVE && event.seat == 8, TALLY_EDGE_SEAT_8);
    tally_if(tally, of_register, TALLY_REFUSED_2_REGISTER);
    tally_if(tally, of_register && event.number == 8, TALLY_EDGE_REGISTER_8);
    tally_if(tally, of_port, TALLY_REFUSED_2_PORT);
    tally_if(tally, of_port && event.number == 2, TALLY_EDGE_PORT_2);
    tally_if(tally, refusal == REFUSAL_KIND_ABOVE, TALLY_REFUSED_3);
    tally_if(tally, of_divisor && event.kind == KIND_ARRIVAL, TALLY_REFUSED_5_ARRIVAL);
    tally_if(tally, of_divisor && event.kind == KIND_CHARACTER_TIME, TALLY_REFUSED_5_TIME);
    tally_if(tally, refusal == REFUSAL_LEVELS_ABOVE, TALLY_REFUSED_7);
    tally_if(tally, refusal == REFUSAL_LEVELS_ABOVE && event.value == 16, TALLY_EDGE_LEVELS_16);
    if (event.kind == KIND_ARRIVAL && refusal != REFUSAL_SEAT_ABOVE)
        tally_arrival(tally, moment);
    if (refusal == REFUSAL_NOT_READY)
        tally_not_ready(tally, moment);
    if (refusal == REFUSAL_NOT_SERVED)
        tally_unserved(tally, moment);
}
