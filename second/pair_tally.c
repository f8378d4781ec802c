#include "pair_tally.h"

#include <inttypes.h>
#include <stdio.h>
#include <string.h>

#include "image.h"
#include "image_shape.h"

#define PAIR_WORDS(name, words) words,
static const char *const pair_words[] = {PAIR_ITEMS(PAIR_WORDS)};

/* Both benches of a pair, saved. */
struct saved {
    uint8_t images[SIDES][IMAGE_BYTES];
};

void pair_tally_if(struct pair_tally *tally, bool reached, enum pair_item item)
{
    if (reached)
        tally->reached[item] += 1;
}

void pair_tally_begin(struct pair_tally *tally, unsigned seat)
{
    tally->seat = seat;
}

static struct saved save_both(const struct bench benches[SIDES])
{
    struct saved saved;
    for (enum side side = SIDE_LEFT; side < SIDES; side += 1)
        image_save(&benches[side], saved.images[side], IMAGE_BYTES, 0);
    return saved;
}

static bool records_differ(const struct saved *saved, unsigned seat)
{
    return memcmp(image_record(saved->images[SIDE_LEFT], seat),
                  image_record(saved->images[SIDE_RIGHT], seat), IMAGE_SEAT_BYTES) != 0;
}

/* A set of lines has the seat's on one side and not on the other. */
static bool one_alone(const struct pair_tally *tally, unsigned left, unsigned right)
{
    return ((left ^ right) >> tally->seat & 1U) != 0;
}

void pair_tally_turn(struct pair_tally *tally, const struct bench benches[SIDES])
{
    const struct controller *left = &benches[SIDE_LEFT].controller;
    const struct controller *right = &benches[SIDE_RIGHT].controller;
    bool high = channel_line(&benches[SIDE_LEFT].seats[tally->seat]);
    bool outputs = controller_output(left) != controller_output(right);
    struct saved saved = save_both(benches);
    tally->turns += 1;
    tally->alike += records_differ(&saved, tally->seat) ? 0 : 1;
    pair_tally_if(tally, high && outputs, PAIR_OUTPUT_HIGH);
    pair_tally_if(tally, !high && outputs, PAIR_OUTPUT_LOW);
    pair_tally_if(tally, one_alone(tally, left->latches, right->latches), PAIR_LATCH_ONE);
    pair_tally_if(tally, one_alone(tally, left->in_service, right->in_service), PAIR_SERVICE_ONE);
    pair_tally_if(tally, high && one_alone(tally, left->mask, right->mask), PAIR_MASKED_ONE);
    pair_tally_if(tally, controller_ready(left) != controller_ready(right), PAIR_READY_ONE);
}

static void stop_unlike(struct pair_tally *tally, const struct saved *saved)
{
    unsigned unlike = 0;
    for (unsigned seat = 0; seat < SEATS; seat += 1)
        if (seat != tally->seat && records_differ(saved, seat))
            unlike += 1;
    bool controllers = memcmp(saved->images[SIDE_LEFT], saved->images[SIDE_RIGHT],
                              IMAGE_AT_SEATS) != 0;
    pair_tally_if(tally, unlike == SEATS - 1U, PAIR_STOP_NEIGHBOURS);
    pair_tally_if(tally, controllers, PAIR_STOP_CONTROLLERS);
}

static void stop_refused(struct pair_tally *tally, const struct pair_stop *stop)
{
    bool older = stop->older;
    bool other = stop->refusals[SIDE_LEFT] != stop->refusals[SIDE_RIGHT];
    struct saved saved = save_both(stop->before);
    const uint8_t *record = image_record(saved.images[SIDE_LEFT], tally->seat);
    pair_tally_if(tally, older && other, PAIR_STOP_1_OTHER);
    pair_tally_if(tally, !older && other, PAIR_STOP_2_OTHER);
    pair_tally_if(tally, older && !other, PAIR_STOP_1_OWN);
    pair_tally_if(tally, !older && !other, PAIR_STOP_2_OWN);
    pair_tally_if(tally, memcmp(record, stop->shelf, IMAGE_OLDER_SEAT_BYTES) != 0,
                  PAIR_STOP_KEPT);
}

static bool same_ledgers(const struct ledger *one, const struct ledger *other)
{
    return one->arrived == other->arrived && one->read == other->read
        && one->lost == other->lost && one->dropped == other->dropped;
}

static void stop_read(struct pair_tally *tally, const struct pair_stop *stop)
{
    bool older = stop->older;
    const struct channel *was = &stop->before[SIDE_LEFT].seats[tally->seat];
    const struct channel *is = &stop->after[SIDE_LEFT].seats[tally->seat];
    struct saved before = save_both(stop->before);
    struct saved after = save_both(stop->after);
    bool same = memcmp(image_record(before.images[SIDE_LEFT], tally->seat),
                       image_record(after.images[SIDE_LEFT], tally->seat),
                       IMAGE_SEAT_BYTES) == 0;
    uint32_t arrived = image_number(stop->shelf + SEAT_AT_FIGURES + 4 * FIGURE_ARRIVED);
    pair_tally_if(tally, older, PAIR_STOP_1);
    pair_tally_if(tally, !older, PAIR_STOP_2);
    pair_tally_if(tally, !same, PAIR_STOP_CHANGED);
    pair_tally_if(tally, !same_ledgers(&was->ledger, &is->ledger), PAIR_STOP_TALLIES);
    pair_tally_if(tally, !channel_line(was) && channel_line(is), PAIR_STOP_RISES);
    pair_tally_if(tally, channel_line(was) && !channel_line(is), PAIR_STOP_FALLS);
    pair_tally_if(tally, older && is->ledger.arrived < arrived, PAIR_STOP_OLDER);
    pair_tally_if(tally, is->ledger.arrived == LEDGER_MOST, PAIR_STOP_MOST);
    pair_tally_if(tally, channel_in_loopback(is), PAIR_STOP_INSIDE);
    pair_tally_if(tally, queue_has_mark(&is->receive), PAIR_STOP_MARKED);
    pair_tally_if(tally, !queue_is_empty(&is->transmit), PAIR_STOP_SENDING);
}

void pair_tally_stop(struct pair_tally *tally, const struct pair_stop *stop)
{
    struct saved saved = save_both(stop->before);
    stop_unlike(tally, &saved);
    if (stop->refusals[SIDE_LEFT] == REFUSAL_NONE)
        stop_read(tally, stop);
    else
        stop_refused(tally, stop);
}

void pair_tally_end(struct pair_tally *tally, bool agreeing)
{
    tally->pairs += 1;
    tally->agreeing += agreeing ? 1 : 0;
}

int pair_tally_print(const struct pair_tally *tally)
{
    int result = tally->alike < tally->turns || tally->agreeing < tally->pairs ? 1 : 0;
    printf("%10" PRIu64 "  pairs\n%10" PRIu64 "  pairs with equal sights\n", tally->pairs,
           tally->agreeing);
    printf("%10" PRIu64 "  turns\n%10" PRIu64 "  turns with the seat alike on both sides\n",
           tally->turns, tally->alike);
    for (unsigned i = 0; i < PAIR_COUNT; i += 1) {
        printf("%10" PRIu64 "  pairs: %s\n", tally->reached[i], pair_words[i]);
        if (tally->reached[i] == 0)
            result = 1;
    }
    return result;
}
