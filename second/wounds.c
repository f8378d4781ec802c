#include "wounds.h"

#include "image_shape.h"
#include "ledger.h"

struct wound_row {
    uint8_t place; /* from IMAGE_AT_SEATS on a field of seat 0, for any seat */
    uint8_t low;
    uint8_t most;
};

#define WOUND_ROWS 56U

/* TRIALS.md, Wound rows. */
static const struct wound_row wound_rows[WOUND_ROWS] = {
    {2, 79, 1}, {3, 2, 254}, {4, 1, 254}, {5, 0, 5},
    {6, 0, 2}, {7, 0, 255}, {8, 0, 9}, {9, 0, 255},
    {10, 0, 255}, {11, 0, 2}, {12, 0, 2}, {13, 0, 2},
    {14, 0, 2}, {15, 0, 255}, {16, 0, 31}, {17, 0, 1},
    {17, 0, 255}, {17, 192, 15}, {18, 0, 255}, {19, 0, 31},
    {20, 0, 31}, {22, 0, 31}, {23, 0, 1}, {26, 0, 2},
    {27, 0, 15}, {28, 0, 2}, {29, 0, 5}, {29, 1, 3},
    {30, 0, 2}, {31, 0, 255}, {32, 0, 17}, {32, 2, 254},
    {33, 0, 255}, {48, 0, 1}, {49, 0, 17}, {49, 2, 254},
    {50, 0, 255}, {65, 0, 1}, {66, 0, 15}, {81, 0, 8},
    {3, 0, 3}, {82, 0, 255}, {82, 0, 15}, {83, 0, 1},
    {85, 0, 255}, {86, 0, 255}, {87, 0, 1}, {89, 0, 255},
    {90, 0, 15}, {93, 0, 255}, {94, 0, 15}, {97, 128, 127},
    {98, 0, 17}, {98, 0, 255}, {99, 0, 1}, {101, 0, 1},
};

unsigned pick_spot(struct stream *picker)
{
    unsigned sixteenth = stream_draw(picker, 16);
    return 44U * sixteenth + stream_draw(picker, 44);
}

/* The picks of a wound, of which each way uses some. */
struct picks {
    unsigned way;
    unsigned position;
    unsigned bit_or_seat;
    unsigned byte;
    const struct wound_row *row;
    unsigned value;
    unsigned from;
    unsigned to;
};

/* TRIALS.md: "all always and in this order" */
static struct picks make_picks(struct stream *picker)
{
    struct picks picks = {.way = stream_draw(picker, 12)};
    picks.position = pick_spot(picker);
    picks.bit_or_seat = stream_draw(picker, 8);
    picks.byte = stream_draw(picker, 256);
    picks.row = &wound_rows[stream_draw(picker, WOUND_ROWS)];
    picks.value = picks.row->low + stream_draw(picker, picks.row->most + 1U);
    picks.from = stream_draw(picker, 4);
    picks.to = (picks.from + 1U + stream_draw(picker, 4)) % FIGURES;
    return picks;
}

static uint32_t amount(const struct picks *picks, const uint8_t *figures)
{
    uint32_t arrived = image_number(figures + 4 * FIGURE_ARRIVED);
    switch (picks->way) {
    case 8: return picks->byte;
    case 9: return picks->byte * 16777216U;
    case 10: return LEDGER_MOST - picks->byte % 4U - arrived;
    default: return image_number(figures + 4U * picks->from);
    }
}

/* So that the tallies still add up, where nothing wraps. */
static void transfer(const struct picks *picks, uint8_t *figures)
{
    uint8_t *from = figures + 4U * picks->from;
    uint8_t *to = figures + 4U * picks->to;
    uint32_t moved = amount(picks, figures);
    bool rise = picks->from == FIGURE_ARRIVED || picks->to == FIGURE_ARRIVED;
    image_put_number(from, rise ? image_number(from) + moved : image_number(from) - moved);
    image_put_number(to, image_number(to) + moved);
}

static void replace(const struct picks *picks, uint8_t *at)
{
    switch (picks->way) {
    case 0:
    case 1: *at = (uint8_t)picks->byte; break;
    case 2:
    case 3: *at = (uint8_t)(*at ^ 1U << picks->bit_or_seat); break;
    case 4: *at = (uint8_t)(picks->byte % 18U); break;
    default: *at = (uint8_t)(picks->value % 256U); break;
    }
}

unsigned wound(struct stream *picker, uint8_t image[IMAGE_BYTES], unsigned seat_bytes)
{
    struct picks picks = make_picks(picker);
    unsigned further = seat_bytes * picks.bit_or_seat;
    if (picks.way >= 8) {
        transfer(&picks, image + IMAGE_AT_SEATS + further + SEAT_AT_FIGURES);
        return IMAGE_BYTES;
    }
    unsigned position = picks.position;
    if (picks.way >= 5)
        position = picks.row->place;
    if (picks.way >= 5 && picks.row->place >= IMAGE_AT_SEATS)
        position += further;
    replace(&picks, image + position);
    return position;
}
