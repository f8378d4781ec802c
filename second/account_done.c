/* What was done: one piece, "by the record's four bytes". */
#include "account.h"
#include "words.h"

unsigned account_seat(const struct moment *moment)
{
    bool names = moment->outcome.refusal != REFUSAL_SHORT && moment->event.kind <= KIND_CHARACTER_TIME;
    return names && moment->event.seat < SEATS ? moment->event.seat : SEATS;
}

bool account_divisor(const struct moment *moment)
{
    unsigned seat = account_seat(moment);
    return seat < SEATS && (moment->before->seats[seat].lcr & LCR_DIVISOR) != 0;
}

static void tell_register(struct piece *piece, const struct moment *moment)
{
    struct event event = moment->event;
    bool writes = event.kind == KIND_WRITE_REGISTER;
    bool divisor = account_divisor(moment);
    piece_put(piece, "seat %u %s ", event.seat, writes ? "writes" : "reads");
    if (event.number < REGISTERS)
        piece_put(piece, "%s", register_name(event.number, writes, divisor));
    else
        piece_put(piece, "register %u", event.number);
    if (!writes)
        return;
    /* "V of THR is a letter, else a byte" */
    piece_put(piece, " ");
    if (event.number == 0 && !divisor)
        piece_letter(piece, event.value);
    else
        piece_put(piece, "%02X", event.value);
}

static void tell_arrival(struct piece *piece, struct event event)
{
    piece_letter(piece, event.value);
    piece_put(piece, " arrives at seat %u", event.seat);
    piece_marks(piece, event.number);
}

static void tell_modem_inputs(struct piece *piece, struct event event)
{
    piece_put(piece, "modem inputs of seat %u:", event.seat);
    if (event.value > 15)
        piece_put(piece, " %02X", event.value);
    else
        piece_words_or_none(piece, level_words, LEVEL_WORDS, event.value);
}

static void tell_controller_read(struct piece *piece, const struct moment *moment)
{
    bool in_service = moment->before->controller.reads_in_service;
    piece_put(piece, "controller reads ");
    if (moment->event.number == 0)
        piece_put(piece, in_service ? "in service" : "requests");
    else if (moment->event.number == 1)
        piece_put(piece, "mask");
    else
        piece_put(piece, "port %u", moment->event.number);
}

/* "`ICW1` where bit 4 of V is set, else `OCW3` where bit 3 is, else `OCW2`" */
static const char *word_at_port_0(unsigned value)
{
    if ((value & 0x10U) != 0)
        return "ICW1";
    return (value & 0x08U) != 0 ? "OCW3" : "OCW2";
}

static const char *word_at_port_1(enum stage stage)
{
    switch (stage) {
    case STAGE_ICW2_NEXT: return "ICW2";
    case STAGE_ICW4_NEXT: return "ICW4";
    case STAGE_READY: return "OCW1";
    case STAGE_BEFORE_ICW1:
    default: return "port 1";
    }
}

static void tell_controller_write(struct piece *piece, const struct moment *moment)
{
    struct event event = moment->event;
    piece_put(piece, "controller writes ");
    if (event.number == 0)
        piece_put(piece, "%s", word_at_port_0(event.value));
    else if (event.number == 1)
        piece_put(piece, "%s", word_at_port_1(moment->before->controller.stage));
    else
        piece_put(piece, "port %u", event.number);
    piece_put(piece, " %02X", event.value);
}

static void tell_event(struct piece *piece, const struct moment *moment)
{
    struct event event = moment->event;
    switch (event.kind) {
    case KIND_READ_REGISTER:
    case KIND_WRITE_REGISTER: tell_register(piece, moment); break;
    case KIND_ARRIVAL: tell_arrival(piece, event); break;
    case KIND_MODEM_INPUTS: tell_modem_inputs(piece, event); break;
    case KIND_CHARACTER_TIME: piece_put(piece, "a character time at seat %u", event.seat); break;
    case KIND_MASTER_RESET: piece_put(piece, "master reset of all eight seats"); break;
    case KIND_READ_CONTROLLER: tell_controller_read(piece, moment); break;
    case KIND_WRITE_CONTROLLER: tell_controller_write(piece, moment); break;
    case KIND_ACKNOWLEDGE: piece_put(piece, "acknowledge"); break;
    default: piece_put(piece, "a record of kind %u", event.kind); break;
    }
}

void account_done(struct page *page, const struct moment *moment)
{
    struct piece piece = {0};
    if (moment->outcome.refusal == REFUSAL_SHORT)
        piece_put(&piece, "a record cut off");
    else
        tell_event(&piece, moment);
    page_piece(page, &piece);
}
