/* Where the fields of a bench lie, in numbers. */
#include "layout.h"

#include <stdalign.h>
#include <stddef.h>
#include <stdio.h>
#include <string.h>

#include "by_name.h"
#include "compare.h"
#include "fields.h"
#include "stream.h"

#define EVENTS 20000UL
#define SEAT_BYTES 100
#define UNUSED_AT 98 /* in a seat: the two bytes that are no field's */
#define UNUSED 2
#define UNTOUCHED 0xA5

static void sizes(void)
{
    is("the size of a bench", sizeof(struct hailstoat_bench), 812);
    is("the alignment of a bench", alignof(struct hailstoat_bench), 4);
    is("the size of a seat", sizeof(struct hailstoat_seat), SEAT_BYTES);
    is("the size of the five tallies", sizeof(struct hailstoat_five), 20);
    is("the alignment of the five tallies", alignof(struct hailstoat_five), 4);
}

/* No more bytes than these are written, and no fewer will do. */
static void bytes_of_an_image(void)
{
    uint8_t buffer[HAILSTOAT_IMAGE_BYTES + 1];
    struct hailstoat_bench bench = {0};
    memset(buffer, UNTOUCHED, sizeof buffer);
    is("a save with a byte too few", hailstoat_word_refusal(hailstoat_save(&bench, buffer, HAILSTOAT_IMAGE_BYTES - 1, 0)), HAILSTOAT_NO_ROOM);
    is("the first byte then", buffer[0], UNTOUCHED);
    is("a save with just enough", hailstoat_word_refusal(hailstoat_save(&bench, buffer, HAILSTOAT_IMAGE_BYTES, 0)), HAILSTOAT_ACCEPTED);
    is("the first byte then", buffer[0], 'B');
    is("the last byte of the image", buffer[HAILSTOAT_IMAGE_BYTES - 1], 0);
    is("the byte behind it", buffer[HAILSTOAT_IMAGE_BYTES], UNTOUCHED);
}

static void places(void)
{
    is("the place of seat 1", offsetof(struct hailstoat_bench, seats[1]), SEAT_BYTES);
    is("the place of the controller", offsetof(struct hailstoat_bench, controller), 800);
    is("the place of the tallies", offsetof(struct hailstoat_seat, tallies), 0);
    is("the place of the settings", offsetof(struct hailstoat_seat, settings), 16);
    is("the place of the receiver", offsetof(struct hailstoat_seat, receiver), 23);
    is("the place of the transmitter", offsetof(struct hailstoat_seat, transmitter), 60);
    is("the place of the modem side", offsetof(struct hailstoat_seat, modem), 96);
    is("the end of the modem side", offsetof(struct hailstoat_seat, modem) + sizeof(struct hailstoat_modem), UNUSED_AT);
}

static void places_of_tallies(void)
{
    is("the place of arrived", offsetof(struct hailstoat_four, arrived), 0);
    is("the place of read", offsetof(struct hailstoat_four, read), 4);
    is("the place of lost", offsetof(struct hailstoat_four, lost), 8);
    is("the place of dropped", offsetof(struct hailstoat_four, dropped), 12);
    is("the place of arrived, handed out", offsetof(struct hailstoat_five, arrived), 0);
    is("the place of read, handed out", offsetof(struct hailstoat_five, read), 4);
    is("the place of lost, handed out", offsetof(struct hailstoat_five, lost), 8);
    is("the place of dropped, handed out", offsetof(struct hailstoat_five, dropped), 12);
    is("the place of queued, handed out", offsetof(struct hailstoat_five, queued), 16);
}

static void bytes_of_no_field(void)
{
    struct hailstoat_bench plain = {0}, soiled = {0};
    struct stream stream = stream_begin(9, 0);
    for (unsigned seat = 0; seat < HAILSTOAT_SEATS; seat += 1)
        memset((uint8_t *)&soiled.seats[seat] + UNUSED_AT, 0xFF, UNUSED);
    for (unsigned long at = 0; at < EVENTS; at += 1) {
        struct event e = stream_next(&stream);
        uint64_t word = hailstoat_event(&plain, e.kind, e.seat, e.number, (uint8_t)e.value);
        if (hailstoat_event(&soiled, e.kind, e.seat, e.number, (uint8_t)e.value) != word)
            fail("a byte that is no field's changes an answer");
    }
    if (!same_fields(&plain, &soiled))
        fail("a byte that is no field's changes the bench");
}

void layout(void)
{
    sizes();
    places();
    places_of_tallies();
    bytes_of_an_image();
    bytes_of_no_field();
    printf("layout: sizes, alignment and places as the header says; bytes of no field mean nothing in %lu events\n", EVENTS);
}
