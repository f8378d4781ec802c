/* The controller's lines, ranks, reads and acknowledge. */
#include "controller.h"

static unsigned set_of(unsigned line)
{
    return 1U << line;
}

struct controller controller_at_power_up(void)
{
    return (struct controller){.stage = STAGE_BEFORE_ICW1, .last_ranked = LINES - 1};
}

bool controller_ready(const struct controller *controller)
{
    return controller->stage == STAGE_READY;
}

/* "Rank runs upward in line number round the eight, from the line after the
   last-ranked." */
static unsigned line_at_place(const struct controller *controller, unsigned place)
{
    return (controller->last_ranked + 1 + place) % LINES;
}

unsigned controller_place(const struct controller *controller, unsigned line)
{
    unsigned place = 0;
    while (line_at_place(controller, place) != line)
        place += 1;
    return place;
}

/* The first-ranked line of a set; LINES if the set is empty. */
static unsigned first_ranked(const struct controller *controller, unsigned set)
{
    for (unsigned place = 0; place < LINES; place += 1) {
        unsigned line = line_at_place(controller, place);
        if ((set & set_of(line)) != 0)
            return line;
    }
    return LINES;
}

/* "A request stands in level mode if the line is high; in edge mode if its
   latch is set." */
unsigned controller_standing(const struct controller *controller)
{
    return controller->level_mode ? controller->lines : controller->latches;
}

/* "in special mask mode, masked in-service lines do not hinder"; and for the
   plain ends: "in special mask mode only an unmasked one". */
static unsigned counted_in_service(const struct controller *controller)
{
    if (controller->special_mask)
        return controller->in_service & ~controller->mask;
    return controller->in_service;
}

unsigned controller_plain_end_line(const struct controller *controller)
{
    return first_ranked(controller, counted_in_service(controller));
}

/* "A line is grantable if its request stands unmasked and it ranks above every
   in-service line." If the first-ranked request does not rank above them, no
   other does. */
unsigned controller_grantable(const struct controller *controller)
{
    unsigned asking = controller_standing(controller) & ~controller->mask;
    unsigned line = first_ranked(controller, asking);
    unsigned hinders = first_ranked(controller, counted_in_service(controller));
    if (line == LINES || hinders == LINES)
        return line;
    bool above = controller_place(controller, line) < controller_place(controller, hinders);
    return above ? line : LINES;
}

/* "The output is high exactly if ready and some line is grantable." */
bool controller_output(const struct controller *controller)
{
    return controller_ready(controller) && controller_grantable(controller) != LINES;
}

void controller_watch(struct controller *controller, unsigned lines)
{
    unsigned rises = lines & ~controller->lines;
    controller->latches = (controller->latches | rises) & lines;
    controller->lines = lines;
}

/* "Ready: port 1 is the mask, both ways. Port 0 reads the standing requests,
   masked or not, or in-service." */
struct outcome controller_read(const struct controller *controller, unsigned port)
{
    if (!controller_ready(controller))
        return refused(REFUSAL_NOT_READY);
    if (port == 1)
        return accepted(controller->mask);
    if (controller->reads_in_service)
        return accepted(controller->in_service);
    return accepted(controller_standing(controller));
}

struct outcome controller_acknowledge(struct controller *controller)
{
    if (!controller_ready(controller))
        return refused(REFUSAL_NOT_READY);
    unsigned line = controller_grantable(controller);
    /* "None: spurious, base + 7, nothing changes." */
    if (line == LINES)
        return accepted(ANSWER_SPURIOUS + controller->base + 7);
    controller->latches &= ~set_of(line);
    if (!controller->automatic_end)
        controller->in_service |= set_of(line);
    /* "with automatic end and its rotation it becomes last-ranked" */
    if (controller->automatic_end && controller->automatic_rotation)
        controller->last_ranked = line;
    return accepted(controller->base + line);
}
