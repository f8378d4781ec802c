#include "tasting.h"

#include "image.h"
#include "image_shape.h"
#include "steps.h"

static struct outcome done(enum refusal refusal)
{
    return refusal == REFUSAL_NONE ? accepted(0) : refused(refusal);
}

static struct outcome save_and_restore(struct bench *bench, unsigned at, unsigned byte)
{
    uint8_t image[IMAGE_BYTES];
    image_save(bench, image, IMAGE_BYTES, 0);
    image[at] = (uint8_t)byte;
    return done(image_restore(bench, image, IMAGE_BYTES, 0));
}

/* The answer is 0 if the tally is as expected. */
static struct outcome compare_tally(const struct bench *bench, struct event event)
{
    struct ledger_answer answer = bench_ledger(bench, event.seat);
    if (answer.refusal != REFUSAL_NONE)
        return refused(answer.refusal);
    return accepted(answer.figures[event.number] == event.value ? 0 : 1);
}

static struct outcome put_tally(uint8_t *image, struct event event)
{
    uint8_t *record = image + IMAGE_AT_SEATS + event.seat * IMAGE_SEAT_BYTES;
    image_put_number(record + SEAT_AT_FIGURES + 4U * event.number, event.value);
    return accepted(0);
}

static struct outcome change_saved(struct kept *saved, struct event event)
{
    if (event.kind == STEP_PUT)
        return put_tally(saved->buffer.bytes, event);
    if (event.kind == STEP_PUT_BYTE) {
        saved->buffer.bytes[event.number] = (uint8_t)event.value;
    } else {
        struct kept older = kept_as_older(saved);
        *saved = older;
    }
    return accepted(0);
}

struct outcome tasting_step(struct tasting *tasting, struct event event)
{
    struct bench *bench = &tasting->bench;
    uint8_t *saved = tasting->saved.buffer.bytes;
    switch (event.kind) {
    case STEP_PLACE: return bench_place(bench, event.number);
    case STEP_RESTORE: return save_and_restore(bench, event.number, event.value);
    case STEP_TALLY: return compare_tally(bench, event);
    case STEP_SAVE: return done(image_save(bench, saved, BUFFER_BYTES, 0));
    case STEP_PUT:
    case STEP_PUT_BYTE:
    case STEP_OLDER: return change_saved(&tasting->saved, event);
    case STEP_READ_BACK: return done(image_restore(bench, saved, event.number, 0));
    default: return bench_event(bench, event);
    }
}
