/* Ticket 9: two lessons "where one seat has the same events, master resets
   included, and the others do anything". */
#include "pairs.h"

#include <stdbool.h>
#include <string.h>

#include "digest.h"
#include "image.h"
#include "image_buffer.h"
#include "image_shape.h"
#include "starts.h"
#include "stream.h"

#define TURNS_BETWEEN_STOPS 100U
#define EVENTS_BESIDE_BELOW 4U
#define PLACES (BUFFER_BYTES - IMAGE_BYTES + 1U)

/* A byte that no IER of an image is. */
#define NO_IER 255U

const struct trial pairs[PAIRS] = {
    {201, 20000, 0, 0}, {202, 20000, 1, 0}, {379, 20000, 1, 1}, {204, 20000, 1, 1},
    {205, 20000, 0, 0}, {206, 20000, 1, 0}, {207, 20000, 0, 1}, {280, 20000, 0, 1},
};

/* So much further than the seed the streams of the neighbours begin. */
static const uint32_t beside_from[SIDES] = {1073741824U, 2147483648U};

struct pair {
    unsigned seat; /* the one that is looked at */
    struct stream own;
    struct stream beside[SIDES];
    struct stream picker; /* only its x is used */
    struct bench benches[SIDES];
    uint8_t shelf[IMAGE_SEAT_BYTES];
    struct sights sights;
    struct pair_tally *tally;
};

static unsigned pick(struct pair *pair, unsigned below)
{
    return stream_draw(&pair->picker, below);
}

static void add(struct pair *pair, uint64_t value)
{
    pair->sights.digest = digest_add(pair->sights.digest, value);
}

static void look(struct pair *pair, enum side side, uint64_t value)
{
    pair->sights.seen[side] = digest_add(pair->sights.seen[side], value);
}

static struct outcome give(struct pair *pair, enum side side, struct event event)
{
    struct bench *bench = &pair->benches[side];
    struct bench before = *bench;
    struct outcome outcome = bench_event(bench, event);
    if (pair->tally != NULL)
        pair_tally_event(pair->tally, side, &(struct moment){&before, bench, event, outcome});
    pair->sights.digest = digest_outcome(pair->sights.digest, bench, outcome);
    return outcome;
}

/* "that seat's .. tallies and line", behind a number of what was answered. */
static void see(struct pair *pair, enum side side, unsigned value)
{
    const struct bench *bench = &pair->benches[side];
    struct ledger_answer ledger = bench_ledger(bench, pair->seat);
    look(pair, side, 2U * value + (bench_lines(bench) >> pair->seat & 1U));
    for (unsigned i = 0; i < FIGURES; i += 1)
        look(pair, side, ledger.figures[i]);
}

/* What is seen of one lesson has no part in the other's, nor in the digest, so the
   left may be seen before the right has its event. */
static void give_both(struct pair *pair, struct event event)
{
    for (enum side side = SIDE_LEFT; side < SIDES; side += 1) {
        struct outcome outcome = give(pair, side, event);
        see(pair, side, (unsigned)outcome.refusal * 4096U + outcome.answer);
        pair->sights.seen[side] = digest_letter(pair->sights.seen[side], outcome);
    }
}

/* TRIALS.md, A turn, step 1. */
static void make_own(struct pair *pair, uint64_t turn)
{
    struct event event = stream_next(&pair->own);
    bool of_seat = event.kind <= KIND_CHARACTER_TIME && event.seat < SEATS;
    if (of_seat)
        event.seat = pair->seat;
    if (of_seat || event.kind == KIND_MASTER_RESET)
        give_both(pair, event);
    else
        give(pair, turn % 2 == 0 ? SIDE_LEFT : SIDE_RIGHT, event);
}

/* TRIALS.md: "turned away from seat n" */
static struct event turned_away(struct event event, unsigned seat)
{
    if (event.kind <= KIND_CHARACTER_TIME && event.seat == seat)
        event.seat = (seat + 1U + event.value % (SEATS - 1U)) % SEATS;
    if (event.kind == KIND_MASTER_RESET)
        event.kind = KIND_ACKNOWLEDGE;
    return event;
}

/* TRIALS.md, A turn, steps 2 and 3. */
static void make_beside(struct pair *pair, enum side side)
{
    unsigned events = pick(pair, EVENTS_BESIDE_BELOW);
    for (unsigned i = 0; i < events; i += 1)
        give(pair, side, turned_away(stream_next(&pair->beside[side]), pair->seat));
}

static uint8_t *image_of(struct kept *kept)
{
    return kept->buffer.bytes + kept->place;
}

static uint8_t *record_of(struct kept *kept, unsigned seat)
{
    uint8_t *image = image_of(kept);
    return image + IMAGE_AT_SEATS + seat * image_shape(image)->seat_bytes;
}

/* The bench is saved, and the one seat's record seen. */
static struct kept keep(struct pair *pair, enum side side, unsigned place)
{
    struct kept kept = {buffer_fresh(), place};
    add(pair, image_save(&pair->benches[side], kept.buffer.bytes, BUFFER_BYTES, place));
    pair->sights.digest = digest_buffer(pair->sights.digest, &kept.buffer);
    const uint8_t *record = record_of(&kept, pair->seat);
    for (unsigned i = 0; i < IMAGE_SEAT_BYTES; i += 1)
        look(pair, side, record[i]);
    return kept;
}

/* TRIALS.md, A stop of a pair, steps 2 and 4: the new image of one side is the
   other's, but for the one seat. */
static struct kept crossed(const struct pair *pair, const struct kept *other, bool older)
{
    struct kept kept = *other;
    image_of(&kept)[IMAGE_AT_CONTROLLER + CONTROLLER_AT_LATCHES] = 0;
    memcpy(record_of(&kept, pair->seat), pair->shelf, IMAGE_SEAT_BYTES);
    return older ? kept_as_older(&kept) : kept;
}

/* TRIALS.md, A stop of a pair, step 5. */
static void spoil(const struct pair *pair, struct kept images[SIDES], unsigned way)
{
    if (way == 0) {
        image_of(&images[SIDE_LEFT])[0] = 0;
        record_of(&images[SIDE_RIGHT], (pair->seat + 1U) % SEATS)[SEAT_AT_IER] = NO_IER;
    }
    for (enum side side = SIDE_LEFT; way == 1 && side < SIDES; side += 1)
        record_of(&images[side], pair->seat)[SEAT_AT_IER] = NO_IER;
}

/* "A restore is an event for each seat: the lessons must agree on .. whether it is
   refused", and not by which number (S213). */
static enum refusal restore(struct pair *pair, enum side side, const struct kept *kept)
{
    struct bench *bench = &pair->benches[side];
    enum refusal refusal = image_restore(bench, kept->buffer.bytes, BUFFER_BYTES, kept->place);
    add(pair, refusal);
    see(pair, side, refusal == REFUSAL_NONE ? 0 : 1);
    return refusal;
}

/* TRIALS.md, A stop of a pair, step 6. */
static void restore_both(struct pair *pair, const struct kept images[SIDES],
                         struct pair_stop *stop)
{
    memcpy(stop->before, pair->benches, sizeof stop->before);
    for (enum side side = SIDE_LEFT; side < SIDES; side += 1)
        stop->refusals[side] = restore(pair, side, &images[side]);
    stop->after = pair->benches;
    if (pair->tally != NULL)
        pair_tally_stop(pair->tally, stop);
}

static void stop(struct pair *pair)
{
    bool older = pick(pair, 2) == 0;
    unsigned way = pick(pair, 4);
    unsigned place = pick(pair, PLACES);
    struct kept left = keep(pair, SIDE_LEFT, place);
    struct kept right = keep(pair, SIDE_RIGHT, place);
    struct kept images[SIDES] = {crossed(pair, &right, older), crossed(pair, &left, older)};
    struct pair_stop made = {.older = older};
    memcpy(made.shelf, pair->shelf, IMAGE_SEAT_BYTES);
    memcpy(pair->shelf, record_of(&left, pair->seat), IMAGE_SEAT_BYTES);
    spoil(pair, images, way);
    restore_both(pair, images, &made);
}

static struct kept saved_start(unsigned start)
{
    struct kept kept = {buffer_fresh(), 0};
    struct bench bench = starts[start]();
    image_save(&bench, kept.buffer.bytes, BUFFER_BYTES, kept.place);
    return kept;
}

/* "Both start with that seat set alike." */
static void begin_benches(struct pair *pair, unsigned start)
{
    struct kept left = saved_start(start);
    struct kept right = saved_start(1U - start);
    memcpy(pair->shelf, record_of(&left, pair->seat), IMAGE_SEAT_BYTES);
    memcpy(record_of(&right, pair->seat), pair->shelf, IMAGE_SEAT_BYTES);
    pair->benches[SIDE_LEFT] = starts[start]();
    image_restore(&pair->benches[SIDE_RIGHT], right.buffer.bytes, BUFFER_BYTES, right.place);
}

/* A turn and the stop behind it, if there is one. */
static void make_turn(struct pair *pair, uint64_t turn)
{
    make_own(pair, turn);
    make_beside(pair, SIDE_LEFT);
    make_beside(pair, SIDE_RIGHT);
    if (pair->tally != NULL)
        pair_tally_turn(pair->tally, pair->benches);
    if ((turn + 1) % TURNS_BETWEEN_STOPS == 0)
        stop(pair);
}

struct sights pair_sights(struct trial trial, struct pair_tally *tally)
{
    struct pair pair = {
        .seat = trial.seed % SEATS,
        .own = stream_begin(trial.seed, trial.set),
        .beside = {stream_begin(trial.seed + beside_from[SIDE_LEFT], trial.set),
                   stream_begin(trial.seed + beside_from[SIDE_RIGHT], trial.set)},
        .picker = stream_begin(UINT32_MAX - trial.seed, trial.set),
        .tally = tally,
    };
    begin_benches(&pair, trial.start);
    if (tally != NULL)
        pair_tally_begin(tally, pair.seat);
    for (uint64_t turn = 0; turn < trial.count; turn += 1)
        make_turn(&pair, turn);
    if (tally != NULL)
        pair_tally_end(tally, pair.sights.seen[SIDE_LEFT] == pair.sights.seen[SIDE_RIGHT]);
    return pair.sights;
}
