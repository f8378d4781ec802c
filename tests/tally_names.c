/* The header's names for the tallies: what moves each of the five, and what none holds. */
#include "tally_names.h"

#include <stdio.h>

#include "by_name.h"
#include "compare.h"
#include "fields.h"

#define FILLED {9, 9, 9, 9, 9} /* what the call must not leave */

static void are(const char *what, uint32_t seat, struct hailstoat_five wanted)
{
    struct hailstoat_five five = FILLED;
    uint64_t word = hailstoat_tallies(&worked, seat, &five);
    is(what, hailstoat_word_refusal(word), HAILSTOAT_ACCEPTED);
    is(what, hailstoat_word_answer(word), 0);
    is(what, five.arrived, wanted.arrived);
    is(what, five.read, wanted.read);
    is(what, five.lost, wanted.lost);
    is(what, five.dropped, wanted.dropped);
    is(what, five.queued, wanted.queued);
}

static void are_none(const char *what, uint32_t seat)
{
    struct hailstoat_five five = FILLED;
    uint64_t word = hailstoat_tallies(&worked, seat, &five);
    is(what, hailstoat_word_refusal(word), HAILSTOAT_SEAT_ABOVE);
    is(what, hailstoat_word_answer(word), HAILSTOAT_REFUSED);
    is(what, five.arrived | five.read | five.lost | five.dropped | five.queued, 0);
}

static void arrive(unsigned count)
{
    for (unsigned i = 0; i < count; i += 1)
        play(HAILSTOAT_ARRIVAL, 0, 0, 0x41);
}

static void reads(unsigned count)
{
    for (unsigned i = 0; i < count; i += 1)
        play(HAILSTOAT_READ_REGISTER, 0, HAILSTOAT_RBR, 0);
}

/* Each seat's own, each in its place. */
static void handed_out(void)
{
    for (unsigned seat = 0; seat < HAILSTOAT_SEATS; seat += 1) {
        worked.seats[seat].tallies = (struct hailstoat_four){100 + seat, 200 + seat, 300 + seat, 400 + seat};
        worked.seats[seat].receiver.queue.count = (uint8_t)seat;
    }
    for (unsigned seat = 0; seat < HAILSTOAT_SEATS; seat += 1)
        are("the tallies", seat, (struct hailstoat_five){100 + seat, 200 + seat, 300 + seat, 400 + seat, seat});
    are_none("seat 8", 8);
    are_none("seat 258", 258);
    are_none("seat 65538", 65538);
    are_none("seat FFFFFFFF", UINT32_MAX);
}

static void in_fifo_mode(void)
{
    set_up(0);
    writes(0, HAILSTOAT_FCR, HAILSTOAT_FCR_FIFO);
    are("tallies at first", 0, (struct hailstoat_five){0, 0, 0, 0, 0});
    arrive(HAILSTOAT_SLOTS + 2);
    are("tallies of two too many", 0, (struct hailstoat_five){18, 0, 2, 0, 16});
    reads(3);
    are("tallies after three reads", 0, (struct hailstoat_five){18, 3, 2, 0, 13});
    writes(0, HAILSTOAT_FCR, HAILSTOAT_FCR_FIFO | HAILSTOAT_FCR_EMPTY_RECEIVE);
    are("tallies of an emptied queue", 0, (struct hailstoat_five){18, 3, 2, 13, 0});
    reads(1);
    are("tallies after a read from it", 0, (struct hailstoat_five){18, 3, 2, 13, 0});
    are("tallies of another seat", 1, (struct hailstoat_five){0, 0, 0, 0, 0});
}

static void in_16450_mode(void)
{
    set_up(0);
    arrive(2);
    are("tallies of a replaced one", 0, (struct hailstoat_five){2, 0, 1, 0, 1});
    play(HAILSTOAT_MASTER_RESET, 0, 0, 0);
    are("tallies after a master reset", 0, (struct hailstoat_five){2, 0, 1, 1, 0});
}

/* From power-up: a character in the shift register, and loopback. */
static void sends_to_itself(void)
{
    set_up(0);
    writes(0, HAILSTOAT_MCR, HAILSTOAT_MCR_LOOP);
    writes(0, HAILSTOAT_THR, 0x41);
    play(HAILSTOAT_CHARACTER_TIME, 0, 0, 0);
}

static void in_loopback(void)
{
    sends_to_itself();
    arrive(1);
    are("tallies of an arrival in loopback", 0, (struct hailstoat_five){0, 0, 0, 0, 0});
    play(HAILSTOAT_CHARACTER_TIME, 0, 0, 0);
    are("tallies of what came back", 0, (struct hailstoat_five){1, 0, 0, 0, 1});
}

/* Seat 0 has received so many, and all are read. */
static void have_arrived(uint32_t count)
{
    worked.seats[0].tallies = (struct hailstoat_four){.arrived = count, .read = count};
}

static void is_full(const char *what, uint32_t kind)
{
    struct hailstoat_bench before = worked;
    is_refused(what, kind, 0, 0x41, HAILSTOAT_TALLY_FULL);
    if (!same_fields(&before, &worked))
        fail("a reception that no tally can hold changes the bench");
}

static void full_at_an_arrival(void)
{
    set_up(0);
    have_arrived(UINT32_MAX - 1);
    arrive(1);
    are("tallies at the largest", 0, (struct hailstoat_five){UINT32_MAX, UINT32_MAX - 1, 0, 0, 1});
    is_full("an arrival past the largest", HAILSTOAT_ARRIVAL);
    reads(1);
    are("tallies at the largest, all read", 0, (struct hailstoat_five){UINT32_MAX, UINT32_MAX, 0, 0, 0});
    is_full("an arrival past the largest, all read", HAILSTOAT_ARRIVAL);
}

static void full_in_loopback(void)
{
    sends_to_itself();
    have_arrived(UINT32_MAX);
    is_full("a character time past the largest", HAILSTOAT_CHARACTER_TIME);
    arrive(1);
    are("tallies at the largest", 0, (struct hailstoat_five){UINT32_MAX, UINT32_MAX, 0, 0, 0});
    writes(0, HAILSTOAT_MCR, 0);
    is("a character time outside", play(HAILSTOAT_CHARACTER_TIME, 0, 0, 0), 0x41);
}

size_t tally_names_mean(void)
{
    static void (*const parts[])(void) = {handed_out, in_fifo_mode, in_16450_mode, in_loopback, full_at_an_arrival, full_in_loopback};
    return each_from_power_up(parts, sizeof parts / sizeof parts[0]);
}
