/* Ticket 2: "Lessons end in mid-upload. Write the whole bench into a lent buffer
   at a place the caller names, and read it back next week." */
#include "stops.h"

#include <stdio.h>
#include <string.h>

#include "compare.h"
#include "fields.h"
#include "image.h"
#include "image_buffer.h"
#include "wounds.h"

#define ONE_IN 200U /* events, of which 256 is the most that can be drawn */
#define PLACES (BUFFER_BYTES - IMAGE_BYTES + 1U)
#define FAR 65536U /* past every end, and in the buffer once cut to 16 bits */
#define NO_PLACE SIZE_MAX /* from which nothing may be counted on */

/* How much of a buffer is lent, and the place named in it. */
struct lending {
    size_t length;
    size_t place;
};

static void differs(const char *what, unsigned long at, const char *how)
{
    fprintf(stderr, "%s, after event %lu: ", what, at);
    fail(how);
}

static struct outcome outcome_of(enum refusal refusal)
{
    return refusal == REFUSAL_NONE ? accepted(0) : refused(refusal);
}

struct stops stops_begin(uint32_t seed)
{
    struct stops stops = {.picker = stream_begin(~seed, 0)};
    stops.other.second = bench_at_power_up();
    return stops;
}

/* Into a buffer whose bytes are all 165 before it. The word's output is 0: no event has passed. */
static struct buffer save(struct stops *stops, const struct pair *pair, struct lending lending, const char *what,
                          unsigned long at)
{
    struct buffer ours = buffer_fresh(), theirs = buffer_fresh();
    struct hailstoat_bench before = pair->lent;
    uint64_t word = hailstoat_save(&pair->lent, ours.bytes, lending.length, lending.place);
    enum refusal refusal = image_save(&pair->second, theirs.bytes, lending.length, lending.place);
    if (!told(word, outcome_of(refusal), 0))
        differs(what, at, "a save is answered otherwise");
    if (memcmp(ours.bytes, theirs.bytes, BUFFER_BYTES) != 0)
        differs(what, at, "a buffer that a save left differs");
    if (!same_fields(&before, &pair->lent))
        differs(what, at, "a save changed the bench");
    stops->saved[refusal] += 1;
    return ours;
}

/* The word has the output of the bench as it is then, as after an event. */
static void restore(struct stops *stops, struct pair *pair, const struct buffer *buffer, struct lending lending,
                    const char *what, unsigned long at)
{
    struct hailstoat_bench before = pair->lent;
    struct buffer ours = *buffer;
    uint64_t word = hailstoat_restore(&pair->lent, ours.bytes, lending.length, lending.place);
    enum refusal refusal = image_restore(&pair->second, buffer->bytes, lending.length, lending.place);
    if (!told(word, outcome_of(refusal), bench_output(&pair->second)))
        differs(what, at, "a restore is answered otherwise");
    if (hailstoat_output(&pair->lent) != bench_output(&pair->second))
        differs(what, at, "the output after a restore differs");
    if (refusal != REFUSAL_NONE && !same_fields(&before, &pair->lent))
        differs(what, at, "a refused restore changed the bench");
    if (fields_differ(&pair->lent, &pair->second) != NULL)
        differs(what, at, fields_differ(&pair->lent, &pair->second));
    if (memcmp(ours.bytes, buffer->bytes, BUFFER_BYTES) != 0)
        differs(what, at, "a restore changed the buffer");
    stops->restored[refusal] += 1;
}

static struct lending no_room(struct stops *stops, unsigned place)
{
    unsigned way = stream_draw(&stops->picker, 5), spot = pick_spot(&stops->picker);
    switch (way) {
    case 0: return (struct lending){spot, 0};
    case 1: return (struct lending){BUFFER_BYTES, PLACES + spot};
    case 2: return (struct lending){BUFFER_BYTES, FAR + spot};
    case 3: return (struct lending){BUFFER_BYTES, NO_PLACE - spot};
    default: return (struct lending){place + IMAGE_BYTES - 1U, place};
    }
}

/* One in eight is lent too short as well. */
static void read_damaged(struct stops *stops, const struct kept *kept, const char *what, unsigned long at)
{
    struct kept damaged = stream_draw(&stops->picker, 2) == 0 ? *kept : kept_as_older(kept);
    unsigned older = damaged.buffer.bytes[damaged.place + IMAGE_AT_VERSION] == 1;
    wound(&stops->picker, damaged.buffer.bytes + damaged.place, older ? IMAGE_OLDER_SEAT_BYTES : IMAGE_SEAT_BYTES);
    struct lending lending = {BUFFER_BYTES, damaged.place};
    if (stream_draw(&stops->picker, 8) == 0)
        lending = no_room(stops, damaged.place);
    restore(stops, &stops->other, &damaged.buffer, lending, what, at);
}

/* The bench that the stream goes on with was zeroed, or the one over which damaged images are read. */
static void go_on(struct stops *stops, struct pair *pair, const struct kept *kept, const char *what, unsigned long at)
{
    struct pair next = stops->other;
    if (stream_draw(&stops->picker, 2) == 0)
        next = (struct pair){.second = bench_at_power_up()};
    restore(stops, &next, &kept->buffer, (struct lending){BUFFER_BYTES, kept->place}, what, at);
    if (!same_fields(&next.lent, &pair->lent))
        differs(what, at, "what was saved and restored is another bench");
    *pair = next;
}

void stop_sometimes(struct stops *stops, struct pair *pair, const char *what, unsigned long at)
{
    if (stream_draw(&stops->picker, ONE_IN) != 0)
        return;
    struct kept kept = {.place = stream_draw(&stops->picker, PLACES)};
    save(stops, pair, no_room(stops, kept.place), what, at);
    kept.buffer = save(stops, pair, (struct lending){BUFFER_BYTES, kept.place}, what, at);
    for (unsigned i = 0; i < 4; i += 1)
        read_damaged(stops, &kept, what, at);
    go_on(stops, pair, &kept, what, at);
}

void stops_add(struct stops *all, const struct stops *some)
{
    for (unsigned i = 0; i < REFUSALS; i += 1) {
        all->saved[i] += some->saved[i];
        all->restored[i] += some->restored[i];
    }
}

static unsigned long refusals(const unsigned long met[REFUSALS])
{
    unsigned long count = 0;
    for (unsigned i = 1; i < REFUSALS; i += 1)
        count += met[i];
    return count;
}

void stops_told(const struct stops *all)
{
    if (all->saved[0] == 0 || all->saved[HAILSTOAT_NO_ROOM] == 0 || all->restored[0] == 0)
        fail("no save, no save without room, or no restore was met");
    for (unsigned refusal = HAILSTOAT_NO_ROOM; refusal <= HAILSTOAT_NO_SUCH_BENCH; refusal += 1)
        if (all->restored[refusal] == 0)
            fail("a refusal of damaged images was never met");
    printf("saves: %lu, and %lu without room; restores: %lu, and %lu refused, by 12, 13, 14 and 15; buffers, answers, outputs and fields as the second program's\n",
           all->saved[0], refusals(all->saved), all->restored[0], refusals(all->restored));
}
