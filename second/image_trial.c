#include "image_trial.h"

#include <string.h>

#include "image_buffer.h"
#include "image_shape.h"
#include "starts.h"
#include "stream.h"
#include "wounds.h"

#define EVENTS_BETWEEN_STOPS 100U
#define DAMAGES 128U
#define EVENTS_AFTER_DAMAGE 100U
#define EVENTS_ON_MOST 64U
#define KEPT_EACH 8U
#define OLDER_EACH 4U

#define PLACES (BUFFER_BYTES - IMAGE_BYTES + 1U)

/* A place past every end, and in the buffer once cut to 16 bits. */
#define FAR 65536U

/* Places with 8 bytes behind them, and fewer, and none. */
#define NEAR_END (BUFFER_BYTES - 8U)

const struct trial image_trials[IMAGE_TRIALS] = {
    {101, 20000, 0, 0}, {102, 20000, 0, 0}, {103, 20000, 0, 0}, {104, 20000, 0, 0},
    {105, 20000, 0, 0}, {106, 20000, 0, 0}, {107, 20000, 0, 0}, {108, 20000, 0, 0},
    {109, 20000, 1, 0}, {112, 20000, 1, 0}, {113, 20000, 0, 1}, {114, 20000, 1, 1},
};

/* How much of a buffer is lent, and the place named in it. */
struct lending {
    size_t length;
    uint64_t place;
};

struct image_trial {
    struct stream stream;
    struct stream picker; /* only its x is used */
    struct bench bench;
    struct bench other;
    uint64_t stops;
    struct digests digests;
    struct image_tally *tally;
};

/* Both images of a stop: version 2 and version 1. */
struct images {
    struct kept newest;
    struct kept older;
};

static unsigned pick(struct image_trial *trial, unsigned below)
{
    return stream_draw(&trial->picker, below);
}

static void add(struct image_trial *trial, uint64_t value)
{
    trial->digests.digest = digest_add(trial->digests.digest, value);
}

static struct buffer save(struct image_trial *trial, const struct bench *bench,
                          struct lending lending)
{
    struct buffer buffer = buffer_fresh();
    add(trial, image_save(bench, buffer.bytes, lending.length, lending.place));
    trial->digests.digest = digest_buffer(trial->digests.digest, &buffer);
    return buffer;
}

static struct kept keep(struct image_trial *trial, const struct bench *bench, unsigned place)
{
    return (struct kept){save(trial, bench, (struct lending){BUFFER_BYTES, place}), place};
}

static void ahead(struct image_trial *trial, struct bench *bench, unsigned events)
{
    struct stream copy = trial->stream;
    bool damaged = bench == &trial->other;
    for (unsigned i = 0; i < events; i += 1) {
        struct outcome outcome = bench_event(bench, stream_next(&copy));
        if (trial->tally != NULL && damaged)
            keepings_ahead(&trial->tally->keepings, outcome);
        trial->digests.digest = digest_outcome(trial->digests.digest, bench, outcome);
    }
}

/* TRIALS.md, A stop, step 1: the ways of having no room for an image. */
static struct lending no_room(unsigned way, unsigned spot, unsigned place)
{
    switch (way) {
    case 0: return (struct lending){spot, 0};
    case 1: return (struct lending){BUFFER_BYTES, PLACES + spot};
    case 2: return (struct lending){BUFFER_BYTES, FAR + spot};
    default: return (struct lending){place + IMAGE_BYTES - 1U, place};
    }
}

/* TRIALS.md, A damage, step 2: most are lent as they are. */
static struct lending damage_lending(unsigned way, unsigned spot, unsigned place)
{
    switch (way) {
    case 0: return (struct lending){place + spot, place};
    case 1: return (struct lending){BUFFER_BYTES, place + spot};
    case 2: return (struct lending){BUFFER_BYTES, FAR + spot};
    case 3: return (struct lending){BUFFER_BYTES, NEAR_END + spot % 16U};
    default: return (struct lending){BUFFER_BYTES, place};
    }
}

/* Gives the position of the only byte replaced; IMAGE_BYTES if it is not the only
   one. */
static unsigned wound_once_or_twice(struct image_trial *trial, uint8_t *image)
{
    unsigned seat_bytes = image_shape(image)->seat_bytes;
    bool twice = pick(trial, 4) == 0;
    unsigned position = wound(&trial->picker, image, seat_bytes);
    if (!twice)
        return position;
    wound(&trial->picker, image, seat_bytes);
    return IMAGE_BYTES;
}

/* A damage for the tally alone. */
static void tally_damage(const struct image_trial *trial, const struct kept *kept,
                         struct damage damage)
{
    if (trial->tally == NULL)
        return;
    damage.undamaged = kept->buffer.bytes + kept->place;
    image_tally_damage(trial->tally, &damage);
}

/* The copy of the image is damaged and restored. */
static enum refusal restore_damaged(struct image_trial *trial, const struct kept *kept,
                                    struct kept *copy)
{
    unsigned position = wound_once_or_twice(trial, copy->buffer.bytes + copy->place);
    unsigned way = pick(trial, 24);
    struct lending lending = damage_lending(way, pick_spot(&trial->picker), copy->place);
    const uint8_t *bytes = copy->buffer.bytes;
    enum refusal refusal = image_restore(&trial->other, bytes, lending.length, lending.place);
    tally_damage(trial, kept, (struct damage){bytes, lending.length, lending.place, position,
                                              NULL, refusal});
    return refusal;
}

/* S81: an image that is read is written back as it was, damaged or not. */
static void compare_back(struct image_trial *trial, const struct kept *read,
                         const struct kept *back)
{
    if (trial->tally == NULL)
        return;
    bool older = image_shape(read->buffer.bytes + read->place)->version < IMAGE_VERSION;
    struct kept expected = older ? kept_as_newest(read) : *read;
    if (memcmp(expected.buffer.bytes, back->buffer.bytes, BUFFER_BYTES) == 0)
        trial->tally->written_back += 1;
}

static void damage(struct image_trial *trial, const struct images *images, unsigned number)
{
    bool older = number % OLDER_EACH == OLDER_EACH - 1U;
    const struct kept *kept = older ? &images->older : &images->newest;
    struct kept copy = *kept;
    enum refusal refusal = restore_damaged(trial, kept, &copy);
    bool is_read = refusal == REFUSAL_NONE;
    add(trial, refusal);
    if (is_read || number % KEPT_EACH == 0) {
        struct kept back = keep(trial, &trial->other, kept->place);
        if (is_read)
            compare_back(trial, &copy, &back);
    }
    if (is_read)
        ahead(trial, &trial->other, EVENTS_AFTER_DAMAGE);
}

/* The older image is read over a bench that is then forgotten. */
static void read_older(struct image_trial *trial, const struct kept *older)
{
    struct bench bench = trial->other;
    add(trial, image_restore(&bench, older->buffer.bytes, BUFFER_BYTES, older->place));
    struct kept back = keep(trial, &bench, older->place);
    if (trial->tally != NULL)
        image_tally_older(trial->tally);
    compare_back(trial, older, &back);
}

/* TRIALS.md, A stop. */
static void stop(struct image_trial *trial)
{
    unsigned way = pick(trial, 4);
    unsigned spot = pick_spot(&trial->picker);
    unsigned place = pick(trial, PLACES);
    save(trial, &trial->bench, no_room(way, spot, place));

    struct images images = {.newest = keep(trial, &trial->bench, place)};
    const uint8_t *bytes = images.newest.buffer.bytes;
    if (trial->tally != NULL)
        image_tally_stop(trial->tally, bytes + place);
    ahead(trial, &trial->bench, 1U + pick(trial, EVENTS_ON_MOST));
    if (trial->stops % 2 == 1)
        trial->bench = trial->other;
    add(trial, image_restore(&trial->bench, bytes, BUFFER_BYTES, place));

    images.older = kept_as_older(&images.newest);
    read_older(trial, &images.older);
    trial->other = trial->bench;
    for (unsigned i = 0; i < DAMAGES; i += 1)
        damage(trial, &images, i);
    trial->stops += 1;
}

/* The event is given to a copy, for the tally alone. */
static void tally_event(const struct image_trial *trial, struct event event)
{
    struct bench after = trial->bench;
    struct outcome outcome = bench_event(&after, event);
    image_tally_event(trial->tally, &(struct moment){&trial->bench, &after, event, outcome});
}

struct digests image_trial_digests(struct trial asked, struct image_tally *tally)
{
    struct image_trial trial = {
        .stream = stream_begin(asked.seed, asked.set),
        .picker = stream_begin(UINT32_MAX - asked.seed, asked.set),
        .bench = starts[asked.start](),
        .other = starts[asked.start](),
        .tally = tally,
    };
    if (tally != NULL)
        image_tally_begin(tally);
    for (uint64_t i = 1; i <= asked.count; i += 1) {
        struct event event = stream_next(&trial.stream);
        if (tally != NULL)
            tally_event(&trial, event);
        digests_event(&trial.digests, &trial.bench, event);
        if (i % EVENTS_BETWEEN_STOPS == 0)
            stop(&trial);
    }
    return trial.digests;
}
