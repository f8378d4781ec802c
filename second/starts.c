#include "starts.h"

#include <string.h>

#include "image.h"
#include "image_shape.h"

/* TRIALS.md, Starts: how many more each seat takes in before 19. */
static const uint32_t still[SEATS] = {0, 1, 35, 100, 400, 18, 20, 4000};

/* Few characters short of the largest value of arrived. */
static struct bench nearly_full(void)
{
    struct bench bench = bench_at_power_up();
    uint8_t image[IMAGE_BYTES] = {0};
    memcpy(image, IMAGE_MARK, IMAGE_MARK_BYTES);
    image[IMAGE_AT_VERSION] = IMAGE_VERSION;
    for (unsigned seat = 0; seat < SEATS; seat += 1) {
        uint8_t *figures = image + IMAGE_AT_SEATS + seat * IMAGE_SEAT_BYTES + SEAT_AT_FIGURES;
        image_put_number(figures + 4 * FIGURE_ARRIVED, LEDGER_MOST - still[seat]);
        image_put_number(figures + 4 * FIGURE_READ, LEDGER_MOST - still[seat]);
    }
    image_restore(&bench, image, IMAGE_BYTES, 0);
    return bench;
}

struct bench (*const starts[STARTS])(void) = {
    bench_at_power_up,
    nearly_full,
};
