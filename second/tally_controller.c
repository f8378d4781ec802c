#include "tally.h"

static void tally_plain_end(struct tally *tally, const struct controller *before, bool rotates)
{
    unsigned line = controller_plain_end_line(before);
    struct controller plain = *before;
    plain.special_mask = false;
    unsigned plain_line = controller_plain_end_line(&plain);
    tally_if(tally, line != LINES && !rotates, TALLY_END_TAKES);
    tally_if(tally, line == LINES && !rotates, TALLY_END_NOTHING);
    tally_if(tally, line != LINES && rotates, TALLY_END_ROTATES);
    tally_if(tally, line == LINES && rotates, TALLY_END_ROTATES_NOTHING);
    tally_if(tally, line != LINES && line != plain_line, TALLY_END_SKIPS);
    tally_if(tally, line == LINES && plain_line != LINES, TALLY_END_ALL_MASKED);
}

static void tally_ocw2(struct tally *tally, const struct controller *before, unsigned byte)
{
    unsigned command = byte >> 5;
    bool served = (before->in_service >> (byte & 7U) & 1U) != 0;
    tally_if(tally, true, tally_behind(TALLY_OCW2_000, command));
    tally_if(tally, command == 7 && !served, TALLY_END_L_IDLE);
    tally_if(tally, (command == 3 || command == 7) && served, TALLY_END_L_SERVED);
    if (command == 1 || command == 5)
        tally_plain_end(tally, before, command == 5);
}

static void tally_ocw3(struct tally *tally, unsigned byte)
{
    tally_if(tally, (byte & 0x60U) == 0x60U, TALLY_SPECIAL_ON);
    tally_if(tally, (byte & 0x60U) == 0x40U, TALLY_SPECIAL_OFF);
    tally_if(tally, (byte & 3U) == 2U, TALLY_SELECT_REQUESTS);
    tally_if(tally, (byte & 3U) == 3U, TALLY_SELECT_SERVICE);
}

static void tally_icw1(struct tally *tally, const struct moment *moment)
{
    const struct controller *before = &moment->before->controller;
    const struct controller *after = &moment->after->controller;
    tally_if(tally, before->stage == STAGE_ICW2_NEXT, TALLY_ICW1_INTERRUPTS_2);
    tally_if(tally, before->stage == STAGE_ICW4_NEXT, TALLY_ICW1_INTERRUPTS_4);
    tally_if(tally, before->lines != 0 && !after->level_mode, TALLY_ICW1_LINES_HIGH);
}

static void tally_write(struct tally *tally, const struct moment *moment)
{
    const struct controller *before = &moment->before->controller;
    unsigned byte = moment->event.value;
    bool made_ready = !controller_ready(before) && controller_ready(&moment->after->controller);
    tally_if(tally, made_ready, TALLY_ICW4_READY);
    bool output = made_ready && bench_output(moment->after) == 1;
    tally_if(tally, output && !before->level_mode, TALLY_ICW4_OUTPUT_EDGE);
    tally_if(tally, output && before->level_mode, TALLY_ICW4_OUTPUT_LEVEL);
    if (moment->event.number == 1)
        return;
    if ((byte & 0x10U) != 0)
        tally_icw1(tally, moment);
    else if ((byte & 0x08U) != 0)
        tally_ocw3(tally, byte);
    else
        tally_ocw2(tally, before, byte);
}

static void tally_read(struct tally *tally, const struct moment *moment)
{
    const struct controller *before = &moment->before->controller;
    bool port_0 = moment->event.number == 0;
    bool some = moment->outcome.answer != 0;
    bool requests = some && port_0 && !before->reads_in_service;
    tally_if(tally, requests && !before->level_mode, TALLY_READ_LATCHES);
    tally_if(tally, requests && before->level_mode, TALLY_READ_LINES);
    tally_if(tally, some && port_0 && before->reads_in_service, TALLY_READ_SERVICE);
    tally_if(tally, some && !port_0, TALLY_READ_MASK);
}

static void tally_grant(struct tally *tally, const struct controller *before)
{
    bool automatic = before->automatic_end;
    bool rotation = before->automatic_rotation;
    struct controller plain = *before;
    plain.special_mask = false;
    bool unhindered = controller_grantable(&plain) != controller_grantable(before);
    tally_if(tally, !before->level_mode, TALLY_GRANT_EDGE);
    tally_if(tally, before->level_mode, TALLY_GRANT_LEVEL);
    tally_if(tally, before->in_service != 0 && !unhindered, TALLY_GRANT_NESTED);
    tally_if(tally, automatic && !rotation, TALLY_GRANT_AUTOMATIC);
    tally_if(tally, automatic && rotation, TALLY_GRANT_ROTATING);
    tally_if(tally, !automatic && rotation, TALLY_GRANT_ROTATION_UNUSED);
    tally_if(tally, unhindered, TALLY_GRANT_UNHINDERED);
}

static void tally_acknowledge(struct tally *tally, const struct moment *moment)
{
    const struct controller *before = &moment->before->controller;
    bool asks = (controller_standing(before) & ~before->mask) != 0;
    bool spurious = moment->outcome.answer >= ANSWER_SPURIOUS;
    tally_if(tally, spurious && !asks, TALLY_SPURIOUS);
    tally_if(tally, spurious && asks && !before->special_mask, TALLY_SPURIOUS_HINDERED);
    tally_if(tally, spurious && asks && before->special_mask, TALLY_SPURIOUS_SPECIAL);
    if (!spurious)
        tally_grant(tally, before);
}

static void tally_lines(struct tally *tally, const struct moment *moment)
{
    const struct controller *before = &moment->before->controller;
    const struct controller *after = &moment->after->controller;
    bool reset = moment->event.kind == KIND_MASTER_RESET;
    tally_if(tally, reset && before->lines != 0, TALLY_RESET_HIGH);
    tally_if(tally, (before->latches & ~after->lines) != 0, TALLY_FALL_CLEARS);
    bool rise = (after->lines & ~before->lines) != 0;
    tally_if(tally, rise && after->stage == STAGE_BEFORE_ICW1, TALLY_RISE_BEFORE_ICW1);
    tally_if(tally, rise && after->stage == STAGE_ICW2_NEXT, TALLY_RISE_BEFORE_ICW2);
    tally_if(tally, rise && after->stage == STAGE_ICW4_NEXT, TALLY_RISE_BEFORE_ICW4);
    unsigned last = after->last_ranked;
    tally_if(tally, last != before->last_ranked, tally_behind(TALLY_LAST_0, last));
}

void tally_controller(struct tally *tally, const struct moment *moment)
{
    bool ports = moment->event.kind == KIND_READ_CONTROLLER
        || moment->event.kind == KIND_WRITE_CONTROLLER;
    tally_if(tally, ports && moment->event.number == 1, TALLY_EDGE_PORT_1);
    tally_lines(tally, moment);
    if (moment->event.kind == KIND_READ_CONTROLLER)
        tally_read(tally, moment);
    if (moment->event.kind == KIND_WRITE_CONTROLLER)
        tally_write(tally, moment);
    if (moment->event.kind == KIND_ACKNOWLEDGE)
        tally_acknowledge(tally, moment);
}
