/* That the header names each byte of the bench rightly: its fields against
   those of the second program, which has the same things under other names. */
#include "fields.h"

#include <stddef.h>
#include <string.h>

#define SEAT_FIELDS (offsetof(struct hailstoat_seat, modem) + sizeof(struct hailstoat_modem))

static int same_queue(const struct hailstoat_queue *lent, const struct queue *second)
{
    for (unsigned i = 0; i < HAILSTOAT_SLOTS; i += 1)
        if (lent->slots[i].data != second->characters[i].data || lent->slots[i].marks != second->characters[i].marks)
            return 0;
    return lent->count == second->count;
}

static int same_settings(const struct hailstoat_settings *lent, const struct channel *second)
{
    return lent->ier == second->ier && lent->fcr == second->fcr && lent->lcr == second->lcr && lent->mcr == second->mcr
        && lent->scratch == second->scratch && lent->dll == second->divisor_low && lent->dlm == second->divisor_high;
}

static int same_receiver(const struct hailstoat_receiver *lent, const struct channel *second)
{
    return same_queue(&lent->queue, &second->receive) && lent->overrun == second->overrun
        && lent->kept == second->kept_marks && lent->timeout == second->timeout_count
        && lent->last == second->last_byte_read;
}

static int same_transmitter(const struct hailstoat_transmitter *lent, const struct channel *second)
{
    return same_queue(&lent->queue, &second->transmit) && lent->busy == second->shift_full
        && (!lent->busy || lent->shift == second->shift_register) && lent->flag == second->holding_empty;
}

static int same_modem(const struct hailstoat_modem *lent, const struct channel *second)
{
    return lent->levels == second->modem_levels && lent->changes == second->modem_changes;
}

static int same_setup(const struct hailstoat_setup *lent, const struct controller *second)
{
    return lent->stage == (unsigned)second->stage && lent->level == second->level_mode && lent->base == second->base
        && lent->automatic == second->automatic_end;
}

static int same_operation(const struct hailstoat_operation *lent, const struct controller *second)
{
    return lent->mask == second->mask && lent->service == second->in_service
        && lent->first == (second->last_ranked + 1) % LINES && lent->rotation == second->automatic_rotation
        && lent->special == second->special_mask && lent->selected == second->reads_in_service;
}

static int same_lines(const struct hailstoat_lines *lent, const struct controller *second)
{
    return lent->levels == second->lines && lent->latches == second->latches;
}

static int same_tallies(const struct hailstoat_four *lent, const struct ledger *second)
{
    return lent->arrived == second->arrived && lent->read == second->read && lent->lost == second->lost
        && lent->dropped == second->dropped;
}

static const char *seats_differ(const struct hailstoat_seat *lent, const struct channel *second)
{
    if (!same_tallies(&lent->tallies, &second->ledger))
        return "tallies";
    if (!same_settings(&lent->settings, second))
        return "settings";
    if (!same_receiver(&lent->receiver, second))
        return "receiver";
    if (!same_transmitter(&lent->transmitter, second))
        return "transmitter";
    return same_modem(&lent->modem, second) ? NULL : "modem";
}

const char *fields_differ(const struct hailstoat_bench *lent, const struct bench *second)
{
    for (unsigned seat = 0; seat < HAILSTOAT_SEATS; seat += 1) {
        const char *part = seats_differ(&lent->seats[seat], &second->seats[seat]);
        if (part != NULL)
            return part;
    }
    if (!same_setup(&lent->controller.setup, &second->controller))
        return "setup";
    if (!same_operation(&lent->controller.operation, &second->controller))
        return "operation";
    return same_lines(&lent->controller.lines, &second->controller) ? NULL : "lines";
}

int same_fields(const struct hailstoat_bench *one, const struct hailstoat_bench *other)
{
    for (unsigned seat = 0; seat < HAILSTOAT_SEATS; seat += 1)
        if (memcmp(&one->seats[seat], &other->seats[seat], SEAT_FIELDS) != 0)
            return 0;
    return memcmp(&one->controller, &other->controller, sizeof one->controller) == 0;
}
