#include "image_tally.h"

#include <inttypes.h>
#include <stdbool.h>
#include <stdio.h>

#include "image_fields.h"
#include "image_shape.h"

#define DAMAGES_LEAST 200000U

#define GROUND_WORDS(name, words) words,
static const char *const ground_words[] = {GROUND_ITEMS(GROUND_WORDS)};

#define RESTORED_WORDS(name, words) words,
static const char *const restored_words[] = {RESTORED_ITEMS(RESTORED_WORDS)};

#define LOOPED_WORDS(name, words) words,
static const char *const looped_words[] = {LOOPED_ITEMS(LOOPED_WORDS)};

static const char *const count_words[TIMEOUT_COUNTS] = {"0", "1", "2", "3", "4"};

/* The same field of every seat is one. */
static unsigned field_of(unsigned at, unsigned seat_bytes)
{
    if (at < IMAGE_AT_SEATS)
        return at;
    return IMAGE_AT_SEATS + (at - IMAGE_AT_SEATS) % seat_bytes;
}

void image_tally_begin(struct image_tally *tally)
{
    tally->watches = (struct watches){0};
}

static void restored_if(struct image_tally *tally, bool reached, enum restored item)
{
    if (reached)
        tally->restored[item] += 1;
}

/* S138: the letters of a bench read back are those of the saved one. */
static void tally_restored(struct image_tally *tally, const struct moment *moment)
{
    const struct channel *before = &moment->before->seats[moment->event.seat];
    const struct watch *watch = &tally->watches.seats[moment->event.seat];
    const struct character *next = &before->receive.characters[1];
    bool fifo = channel_in_fifo_mode(before);
    unsigned marks = moment->outcome.marks;
    if (!moment->outcome.is_letter || (watch->restored & 1U) == 0)
        return;
    restored_if(tally, !fifo && marks != 0, RESTORED_16450);
    restored_if(tally, !fifo && (marks & ~before->kept_marks) != 0, RESTORED_AFTER_LSR);
    restored_if(tally, fifo && marks != 0, RESTORED_FIFO);
    restored_if(tally, watch->restored_cleared && marks == 0, RESTORED_CLEARED);
    restored_if(tally, (watch->restored & 2U) != 0 && next->marks != 0, RESTORED_BEHIND);
}

/* S113: what an arrival that is lost does to the time-out count only a saved
   bench shows, as long as the FIFO stays full and no character time passes. */
static void tally_lost(struct image_tally *tally, const struct moment *moment)
{
    struct event event = moment->event;
    const struct channel *before = &moment->before->seats[event.seat];
    const struct channel *after = &moment->after->seats[event.seat];
    bool lost = moment_arrives(moment) && before->receive.count == PLACES_FIFO;
    if (lost && before->timeout_count > 0)
        tally->lost_at[event.seat] = before->timeout_count;
    if (event.kind == KIND_CHARACTER_TIME || after->receive.count < PLACES_FIFO)
        tally->lost_at[event.seat] = 0;
}

void image_tally_event(struct image_tally *tally, const struct moment *moment)
{
    bool of_seat = moment->event.kind <= KIND_CHARACTER_TIME;
    if (moment->outcome.refusal == REFUSAL_NONE && of_seat) {
        tally_lost(tally, moment);
        tally_restored(tally, moment);
    }
    watches_event(&tally->watches, moment);
}

/* A seat emptied by a master reset, or by a new stream, is full no more. */
static void tally_left(struct image_tally *tally, const uint8_t image[IMAGE_BYTES])
{
    for (unsigned seat = 0; seat < SEATS; seat += 1) {
        const uint8_t *record = image_record(image, seat);
        if (record[SEAT_AT_RECEIVE_COUNT] == PLACES_FIFO)
            tally->left[tally->lost_at[seat]] += 1;
    }
}

static void looped_if(struct image_tally *tally, bool reached, enum looped item)
{
    if (reached)
        tally->looped[item] += 1;
}

static void tally_inside(struct image_tally *tally, const struct bench *bench)
{
    for (unsigned seat = 0; seat < SEATS; seat += 1) {
        const struct channel *channel = &bench->seats[seat];
        bool inside = channel_in_loopback(channel);
        bool other = channel_inputs(channel) != channel->modem_levels;
        looped_if(tally, inside, LOOPED_SAVED);
        looped_if(tally, inside && other, LOOPED_SAVED_OTHER);
        looped_if(tally, inside && channel->modem_changes != 0, LOOPED_SAVED_CHANGES);
        looped_if(tally, inside && channel->shift_full, LOOPED_SAVED_LEAVING);
    }
}

void image_tally_stop(struct image_tally *tally, const uint8_t image[IMAGE_BYTES])
{
    struct bench bench = image_fields(image);
    tally->stops += 1;
    tally_left(tally, image);
    tally_inside(tally, &bench);
    keepings_saved(&tally->keepings, &bench);
    watches_restore(&tally->watches, &bench);
    for (unsigned i = 0; i < IMAGE_BYTES; i += 1)
        if (image[i] != 0 && field_of(i, IMAGE_SEAT_BYTES) < IMAGE_FIELD_BYTES)
            tally->held[field_of(i, IMAGE_SEAT_BYTES)] += 1;
}

void image_tally_older(struct image_tally *tally)
{
    tally->older += 1;
}

static void tally_grounds(struct image_tally *tally, const uint8_t *image)
{
    uint64_t grounds = image_grounds(image);
    for (unsigned i = 0; i < GROUNDS; i += 1)
        if (grounds == UINT64_C(1) << i)
            tally->alone[i] += 1;
}

static bool has_bytes(const struct damage *damage, size_t bytes)
{
    return damage->place <= damage->length && damage->length - damage->place >= bytes;
}

static void tally_refusal_12(struct image_tally *tally, const struct damage *damage)
{
    if (has_bytes(damage, IMAGE_HEADER_BYTES))
        tally->too_short_for_version += 1;
    else
        tally->too_short_for_header += 1;
}

/* An MCR was the only byte wounded. */
static void tally_mcr(struct image_tally *tally, const struct damage *damage)
{
    unsigned was = damage->undamaged[damage->position];
    unsigned is = damage->lent[damage->place + damage->position];
    bool read = damage->refusal == REFUSAL_NONE;
    looped_if(tally, read && (is & ~was & MCR_LOOP) != 0, LOOPED_READ);
    looped_if(tally, read && (was & ~is & MCR_LOOP) != 0, LOOPED_READ_OUT);
    looped_if(tally, read && is == 0x1F && was != 0x1F, LOOPED_READ_1F);
    looped_if(tally, damage->refusal == REFUSAL_NO_BENCH && is == 0x20, LOOPED_REFUSED_20);
}

/* One byte was wounded, and all of the image was lent. */
static void tally_wounded(struct image_tally *tally, const struct damage *damage)
{
    const struct image_shape *shape = image_shape(damage->undamaged);
    bool older = shape->version < IMAGE_VERSION;
    uint64_t *wounded = older ? tally->wounded_older : tally->wounded;
    /* Behind a version 1 image there is something to wound, but not of it. */
    if (damage->position >= shape->bytes || !has_bytes(damage, shape->bytes))
        return;
    wounded[damage->position] += 1;
    if (field_of(damage->position, shape->seat_bytes) == IMAGE_AT_SEATS + SEAT_AT_MCR)
        tally_mcr(tally, damage);
}

void image_tally_damage(struct image_tally *tally, const struct damage *damage)
{
    tally->damages += 1;
    tally_wounded(tally, damage);
    keepings_damage(&tally->keepings, damage);
    switch (damage->refusal) {
    case REFUSAL_NONE: tally->read += 1; break;
    case REFUSAL_NO_ROOM: tally_refusal_12(tally, damage); break;
    case REFUSAL_NO_MARK: tally->wrong_mark += 1; break;
    case REFUSAL_NO_VERSION: tally->unknown_version += 1; break;
    default:
        tally->no_bench += 1;
        tally_grounds(tally, damage->lent + damage->place);
    }
}

/* Not 0 if there are fewer than there are to be; at least one is to be. */
static int print_some(uint64_t number, uint64_t least, const char *before, const char *words)
{
    printf("%10" PRIu64 "  %s%s\n", number, before, words);
    return number == 0 || number < least ? 1 : 0;
}

static int print_item(uint64_t number, const char *before, const char *words)
{
    return print_some(number, 1, before, words);
}

static uint64_t least_of(const uint64_t *numbers, size_t count)
{
    uint64_t least = numbers[0];
    for (size_t i = 1; i < count; i += 1)
        if (numbers[i] < least)
            least = numbers[i];
    return least;
}

int image_tally_print(const struct image_tally *tally)
{
    const uint64_t *held = tally->held + IMAGE_HEADER_BYTES;
    uint64_t least_held = least_of(held, IMAGE_FIELD_BYTES - IMAGE_HEADER_BYTES);
    int result = 0;
    result |= print_item(tally->stops, "stops with a saved bench", "");
    result |= print_item(least_held, "saved benches ", "with something in the field most often 0");
    for (unsigned i = 1; i < TIMEOUT_COUNTS; i += 1)
        result |= print_item(tally->left[i],
                             "saved benches after an arrival lost at time-out count ",
                             count_words[i]);
    for (unsigned i = 0; i < RESTORED_COUNT; i += 1)
        result |= print_item(tally->restored[i], "letter from a saved bench, ", restored_words[i]);
    for (unsigned i = 0; i < LOOPED_COUNT; i += 1)
        result |= print_item(tally->looped[i], looped_words[i], "");
    result |= print_some(tally->damages, DAMAGES_LEAST, "damaged images", "");
    result |= print_item(tally->read, "damaged images ", "read");
    result |= print_item(tally->older, "version 1 images ", "read that were not damaged");
    result |= print_some(tally->written_back, tally->read + tally->older, "images ",
                         "written back as read, those of version 1 as version 2");
    result |= print_item(tally->too_short_for_header, "refusal 12, ", "below 5 bytes");
    result |= print_item(tally->too_short_for_version, "refusal 12, ", "shorter than its version");
    result |= print_item(tally->wrong_mark, "refusal 13", "");
    result |= print_item(tally->unknown_version, "refusal 14", "");
    result |= print_item(tally->no_bench, "refusal 15", "");
    for (unsigned i = 0; i < GROUNDS; i += 1)
        result |= print_item(tally->alone[i], "refusal 15, alone to blame: ", ground_words[i]);
    for (unsigned i = 0; i < KEEPING_COUNT; i += 1)
        result |= print_item(tally->keepings.reached[i], keeping_words[i], "");
    result |= print_item(least_of(tally->wounded_older, IMAGE_OLDER_BYTES), "wounds ",
                         "of the byte of version 1 that has the fewest of its own");
    return result | print_item(least_of(tally->wounded, IMAGE_BYTES), "wounds ",
                               "of the byte that has the fewest of its own");
}
