/* Writes to the controller: initialisation, mask, OCW2 and OCW3. */
#include "controller.h"

#define PORT_0_ICW1 0x10U
#define ICW1_LEVEL 0x08U
#define ICW1_SERVED 0x03U
#define ICW4_SERVED 0x01U
#define ICW4_AUTOMATIC_END 0x02U
#define OCW3 0x08U
#define OCW3_POLL 0x04U

static struct outcome write_icw1(struct controller *controller, unsigned byte)
{
    /* "not served: ICW1 with bit 0 or bit 1 clear" */
    if ((byte & ICW1_SERVED) != ICW1_SERVED)
        return refused(REFUSAL_NOT_SERVED);
    /* "it clears edge latches, mask, in-service, special mask, automatic end
       and its rotation, selects the request register for port 0, ranks line 0
       first, takes bit 3 as level mode and makes the controller not ready".
       The lines themselves and the base are not named. */
    *controller = (struct controller){
        .stage = STAGE_ICW2_NEXT,
        .lines = controller->lines,
        .base = controller->base,
        .last_ranked = LINES - 1,
        .level_mode = (byte & ICW1_LEVEL) != 0,
    };
    return accepted(0);
}

static struct outcome write_icw4(struct controller *controller, unsigned byte)
{
    /* "not served: .. ICW4 with bit 0 clear" */
    if ((byte & ICW4_SERVED) == 0)
        return refused(REFUSAL_NOT_SERVED);
    controller->automatic_end = (byte & ICW4_AUTOMATIC_END) != 0;
    controller->stage = STAGE_READY;
    return accepted(0);
}

static void end_line(struct controller *controller, unsigned line)
{
    controller->in_service &= ~(1U << line);
}

/* "The plain ends take the first-ranked in-service line, in special mask mode
   only an unmasked one; none, nothing changes." */
static void plain_end(struct controller *controller, bool make_last)
{
    unsigned line = controller_plain_end_line(controller);
    if (line == LINES)
        return;
    end_line(controller, line);
    if (make_last)
        controller->last_ranked = line;
}

/* "OCW2 (bits 4-3 are 00), by bits 7-5" */
static void write_ocw2(struct controller *controller, unsigned byte)
{
    unsigned line = byte & 7U;
    switch (byte >> 5) {
    case 1: plain_end(controller, false); break;
    case 5: plain_end(controller, true); break;
    case 3: end_line(controller, line); break;
    case 7: end_line(controller, line); controller->last_ranked = line; break;
    case 6: controller->last_ranked = line; break;
    case 4: controller->automatic_rotation = true; break;
    case 0: controller->automatic_rotation = false; break;
    default: break; /* "010 nothing" */
    }
}

/* "OCW3 (bits 4-3 are 01; bit 7 ignored)" */
static struct outcome write_ocw3(struct controller *controller, unsigned byte)
{
    /* "not served: .. OCW3 with bit 2 set" */
    if ((byte & OCW3_POLL) != 0)
        return refused(REFUSAL_NOT_SERVED);
    /* "bits 6-5 11 special mask on, 10 off" */
    if ((byte & 0x60U) == 0x60U)
        controller->special_mask = true;
    if ((byte & 0x60U) == 0x40U)
        controller->special_mask = false;
    /* "bits 1-0 10 selects requests, 11 in-service" */
    if ((byte & 0x03U) == 0x02U)
        controller->reads_in_service = false;
    if ((byte & 0x03U) == 0x03U)
        controller->reads_in_service = true;
    return accepted(0);
}

static struct outcome write_port_0(struct controller *controller, unsigned byte)
{
    /* "ICW1 may come at any time" */
    if ((byte & PORT_0_ICW1) != 0)
        return write_icw1(controller, byte);
    /* "controller not ready: .. a port 0 write without bit 4" */
    if (!controller_ready(controller))
        return refused(REFUSAL_NOT_READY);
    if ((byte & OCW3) != 0)
        return write_ocw3(controller, byte);
    write_ocw2(controller, byte);
    return accepted(0);
}

static struct outcome write_port_1(struct controller *controller, unsigned byte)
{
    switch (controller->stage) {
    case STAGE_ICW2_NEXT:
        /* "ICW2's top five bits are the base." */
        controller->base = byte & 0xF8U;
        controller->stage = STAGE_ICW4_NEXT;
        return accepted(0);
    case STAGE_ICW4_NEXT:
        return write_icw4(controller, byte);
    case STAGE_READY:
        controller->mask = byte;
        return accepted(0);
    case STAGE_BEFORE_ICW1:
    default:
        /* "a port 1 write before any accepted ICW1" */
        return refused(REFUSAL_NOT_READY);
    }
}

struct outcome controller_write(struct controller *controller, unsigned port, unsigned byte)
{
    return port == 0 ? write_port_0(controller, byte) : write_port_1(controller, byte);
}
