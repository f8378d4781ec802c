#include "stream.h"

#include "scripts.h"

#define SEAT_ANY 16U
#define ONE_IN_SPOILS 96U

struct stream stream_begin(uint32_t seed, unsigned set)
{
    return (struct stream){.x = seed, .set = &sets[set]};
}

unsigned stream_draw(struct stream *stream, unsigned below)
{
    stream->x = (stream->x * 1664525U + 1013904223U) % 4294967296U;
    return (unsigned)(stream->x / 65536U % below);
}

/* TRIALS.md, step 1: a new script when the last one is done. */
static void begin_script(struct stream *stream)
{
    unsigned mood_wind = stream_draw(stream, 12);
    unsigned mood = stream_draw(stream, MOODS);
    unsigned seat_wind = stream_draw(stream, 4);
    unsigned seat = stream_draw(stream, SEATS);
    unsigned pick = stream_draw(stream, PICKS);
    if (mood_wind == 0)
        stream->mood = mood;
    if (seat_wind == 0)
        stream->seat = seat;
    unsigned script = stream->set->picks[stream->mood][pick];
    stream->row = first_row[script];
    stream->stop = first_row[script + 1];
}

/* TRIALS.md, step 3: the event of a row. */
static struct event row_event(struct stream *stream, const struct row *row)
{
    unsigned any = stream_draw(stream, 256);
    unsigned number = stream_draw(stream, row->number_most + 1U);
    unsigned value = stream_draw(stream, row->value_most + 1U);
    struct event event = {
        .kind = row->kind % SEAT_ANY,
        .seat = any,
        .number = (row->number + number) % 256U,
        .value = (row->value + row->value_step * value) % 256U,
    };
    if (row->kind >= SEAT_ANY)
        event.seat = any % SEATS;
    else if (row->kind <= KIND_CHARACTER_TIME)
        event.seat = stream->seat;
    return event;
}

/* TRIALS.md, step 5: now and then one byte is replaced, or the script is left. */
static void spoil(struct stream *stream, struct event *event)
{
    unsigned chance = stream_draw(stream, ONE_IN_SPOILS);
    const struct spoil *with = &stream->set->spoils[stream_draw(stream, SPOILS)];
    unsigned byte = (with->base + stream_draw(stream, with->most + 1U)) % 256U;
    unsigned *bytes[4] = {&event->kind, &event->seat, &event->number, &event->value};
    if (chance == 0)
        *bytes[with->which] = byte;
    if (chance == 1) {
        stream->left = 0;
        stream->row = stream->stop;
    }
}

struct event stream_next(struct stream *stream)
{
    if (stream->left == 0 && stream->row == stream->stop)
        begin_script(stream);
    const struct row *row = &rows[stream->row];
    if (stream->left == 0)
        stream->left = 1U + stream_draw(stream, row->times_most + 1U);
    struct event event = row_event(stream, row);
    stream->left -= 1;
    if (stream->left == 0)
        stream->row = (uint16_t)(stream->row + 1U);
    spoil(stream, &event);
    return event;
}
