/* Ticket 8: "version 1 reads with arrived equal to what is queued", and "15 also
   for tallies that do not add up or miscount the queue". */
#include "image_ledger.h"

#include "image_fields.h"
#include "image_grounds.h"
#include "image_shape.h"
#include "image_tally.h"

#define WRAP UINT64_C(4294967296)

#define KEEPING_WORDS(name, words) words,
const char *const keeping_words[KEEPING_COUNT] = {KEEPING_ITEMS(KEEPING_WORDS)};

static void reached_if(struct keepings *keepings, bool reached, enum keeping item)
{
    if (reached)
        keepings->reached[item] += 1;
}

static void seat_saved(struct keepings *keepings, const struct channel *seat)
{
    const struct ledger *ledger = &seat->ledger;
    bool queued = !queue_is_empty(&seat->receive);
    bool most = ledger->arrived == LEDGER_MOST;
    bool all = ledger->read > 0 && ledger->lost > 0 && ledger->dropped > 0 && queued;
    reached_if(keepings, ledger->read > 0, KEEPING_SAVED_READ);
    reached_if(keepings, ledger->lost > 0, KEEPING_SAVED_LOST);
    reached_if(keepings, ledger->dropped > 0, KEEPING_SAVED_DROPPED);
    reached_if(keepings, queued, KEEPING_SAVED_QUEUED);
    reached_if(keepings, all, KEEPING_SAVED_ALL);
    reached_if(keepings, most, KEEPING_SAVED_MOST);
    reached_if(keepings, most && channel_in_loopback(seat) && seat->shift_full,
               KEEPING_SAVED_STUCK);
}

void keepings_saved(struct keepings *keepings, const struct bench *bench)
{
    for (unsigned seat = 0; seat < SEATS; seat += 1)
        seat_saved(keepings, &bench->seats[seat]);
}

void keepings_ahead(struct keepings *keepings, struct outcome outcome)
{
    reached_if(keepings, outcome.refusal == REFUSAL_ARRIVED_FULL, KEEPING_AHEAD_19);
}

static bool same_top(uint32_t one, uint32_t other)
{
    return one >> 24 == other >> 24;
}

static void seat_read(struct keepings *keepings, const struct ledger *was, const struct ledger *is)
{
    bool other = was->arrived != is->arrived || was->read != is->read || was->lost != is->lost
        || was->dropped != is->dropped;
    bool most = is->arrived == LEDGER_MOST && was->arrived != LEDGER_MOST;
    reached_if(keepings, other, KEEPING_OTHER);
    reached_if(keepings, !same_top(was->arrived, is->arrived), KEEPING_OTHER_ARRIVED);
    reached_if(keepings, !same_top(was->read, is->read), KEEPING_OTHER_READ);
    reached_if(keepings, !same_top(was->lost, is->lost), KEEPING_OTHER_LOST);
    reached_if(keepings, !same_top(was->dropped, is->dropped), KEEPING_OTHER_DROPPED);
    reached_if(keepings, is->arrived < was->arrived, KEEPING_OTHER_LESS);
    reached_if(keepings, most, KEEPING_OTHER_MOST);
}

/* A version 2 image was read as such. */
static void newest_read(struct keepings *keepings, const struct damage *damage)
{
    struct bench was = image_fields(damage->undamaged);
    struct bench is = image_fields(damage->lent + damage->place);
    for (unsigned seat = 0; seat < SEATS; seat += 1)
        seat_read(keepings, &was.seats[seat].ledger, &is.seats[seat].ledger);
}

/* Some seat's tallies are the only thing that is wrong. */
static void sum_refused(struct keepings *keepings, const uint8_t *figures)
{
    uint64_t arrived = image_number(figures + 4 * FIGURE_ARRIVED);
    uint64_t sum = image_sum_of_four(figures);
    reached_if(keepings, sum == arrived + 1, KEEPING_SUM_ONE_MORE);
    reached_if(keepings, sum + 1 == arrived, KEEPING_SUM_ONE_LESS);
    reached_if(keepings, sum == arrived + WRAP, KEEPING_SUM_WRAPPED);
    reached_if(keepings, sum == arrived + 2 * WRAP, KEEPING_SUM_WRAPPED_TWICE);
}

static void miscount_refused(struct keepings *keepings, const uint8_t *was, const uint8_t *is)
{
    uint32_t tally_was = image_number(was + SEAT_AT_FIGURES + 4 * FIGURE_QUEUED);
    uint32_t tally = image_number(is + SEAT_AT_FIGURES + 4 * FIGURE_QUEUED);
    unsigned queue = is[SEAT_AT_RECEIVE_COUNT];
    if (tally == queue)
        return;
    reached_if(keepings, tally % 256U == queue, KEEPING_MISCOUNT_WIDE);
    reached_if(keepings, tally != tally_was, KEEPING_MISCOUNT_TALLY);
    reached_if(keepings, queue != was[SEAT_AT_RECEIVE_COUNT], KEEPING_MISCOUNT_QUEUE);
}

/* A version 2 image was refused by 15 as such. */
static void newest_refused(struct keepings *keepings, const struct damage *damage)
{
    const uint8_t *image = damage->lent + damage->place;
    uint64_t grounds = image_grounds(image);
    for (unsigned seat = 0; seat < SEATS; seat += 1) {
        const uint8_t *record = image_record(image, seat);
        if (grounds == UINT64_C(1) << GROUND_SUM)
            sum_refused(keepings, record + SEAT_AT_FIGURES);
        if (grounds == UINT64_C(1) << GROUND_MISCOUNT)
            miscount_refused(keepings, image_record(damage->undamaged, seat), record);
    }
}

/* A version 1 image that says so still, with all of its header lent. */
static void older_damage(struct keepings *keepings, const struct damage *damage)
{
    const uint8_t *image = damage->lent + damage->place;
    bool read = damage->refusal == REFUSAL_NONE;
    bool other = false;
    for (unsigned seat = 0; read && seat < SEATS; seat += 1)
        other = other || image_record(damage->undamaged, seat)[SEAT_AT_RECEIVE_COUNT]
                != image_record(image, seat)[SEAT_AT_RECEIVE_COUNT];
    reached_if(keepings, read, KEEPING_OLDER_READ);
    reached_if(keepings, other, KEEPING_OLDER_QUEUE);
    reached_if(keepings, read && damage->length - damage->place < IMAGE_BYTES,
               KEEPING_OLDER_LENT);
    reached_if(keepings, damage->refusal == REFUSAL_NO_BENCH, KEEPING_OLDER_NO_BENCH);
    reached_if(keepings, damage->refusal == REFUSAL_NO_ROOM, KEEPING_OLDER_SHORT);
}

static void newest_damage(struct keepings *keepings, const struct damage *damage)
{
    size_t bytes = damage->length - (size_t)damage->place;
    bool short_of = damage->refusal == REFUSAL_NO_ROOM && bytes >= IMAGE_OLDER_BYTES;
    reached_if(keepings, short_of, KEEPING_NEWEST_SHORT);
    if (damage->refusal == REFUSAL_NONE)
        newest_read(keepings, damage);
    if (damage->refusal == REFUSAL_NO_BENCH)
        newest_refused(keepings, damage);
}

void keepings_damage(struct keepings *keepings, const struct damage *damage)
{
    bool header = damage->place <= damage->length
        && damage->length - damage->place >= IMAGE_HEADER_BYTES;
    if (!header || damage->refusal == REFUSAL_NO_MARK)
        return;
    const uint8_t *image = damage->lent + damage->place;
    const struct image_shape *was = image_shape(damage->undamaged);
    const struct image_shape *is = image_shape(image);
    bool high = image[IMAGE_AT_VERSION + 1] != 0;
    reached_if(keepings, !high && image[IMAGE_AT_VERSION] == 0, KEEPING_VERSION_0);
    reached_if(keepings, !high && image[IMAGE_AT_VERSION] == 3, KEEPING_VERSION_3);
    if (is == NULL)
        return;
    reached_if(keepings, was->version > is->version, KEEPING_AS_OLDER);
    reached_if(keepings, was->version < is->version, KEEPING_AS_NEWEST);
    if (was == is && is->version < IMAGE_VERSION)
        older_damage(keepings, damage);
    if (was == is && is->version == IMAGE_VERSION)
        newest_damage(keepings, damage);
}
