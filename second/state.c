#include "state.h"

#include <inttypes.h>

#include "account.h"
#include "words.h"

bool state_in_use(const struct channel *seat)
{
    /* "one of IER, FCR, LCR, MCR, SCRATCH, DLL and DLM is not 0, or a modem level
       or a change bit is set" */
    unsigned settings = seat->ier | seat->fcr | seat->lcr | seat->mcr | seat->scratch | seat->divisor_low
                        | seat->divisor_high | seat->modem_levels | seat->modem_changes;
    /* "or something is in the transmit queue or the shift register, or the
       holding-empty flag is set, or a character has arrived" */
    return settings != 0 || seat->transmit.count != 0 || seat->shift_full || seat->holding_empty
           || seat->ledger.arrived != 0;
}

static void tell_number(struct page *page, const char *name, uint32_t number)
{
    struct piece piece = {0};
    piece_put(&piece, "%s %" PRIu32, name, number);
    page_piece(page, &piece);
}

static void tell_where(struct page *page, bool holds, const char *words)
{
    if (holds)
        page_words(page, words);
}

/* The number, "then, oldest first, a piece for each character there". */
static void tell_queue(struct page *page, const char *name, const struct queue *queue)
{
    tell_number(page, name, queue->count);
    for (unsigned i = 0; i < queue->count; i += 1) {
        struct piece piece = {0};
        piece_letter(&piece, queue->characters[i].data);
        piece_marks(&piece, queue->characters[i].marks);
        page_piece(page, &piece);
    }
}

static void tell_shift_register(struct page *page, const struct channel *seat)
{
    struct piece piece = {0};
    if (!seat->shift_full)
        return;
    piece_put(&piece, "shift register ");
    piece_letter(&piece, seat->shift_register);
    page_piece(page, &piece);
}

static void tell_flags(struct page *page, const struct channel *seat)
{
    struct piece kept = {0};
    if (seat->timeout_count != 0)
        tell_number(page, "time-out count", seat->timeout_count);
    tell_where(page, seat->holding_empty, "holding-empty flag");
    if (seat->kept_marks == 0)
        return;
    piece_put(&kept, "kept marks");
    piece_words(&kept, mark_words, MARK_WORDS, seat->kept_marks);
    page_piece(page, &kept);
}

static void tell_figures(struct page *page, const struct channel *seat)
{
    static const char *const names[FIGURES] = {"arrived", "read", "lost", "dropped", "queued"};
    uint32_t figures[FIGURES];
    channel_figures(seat, figures);
    for (unsigned i = 0; i < FIGURES; i += 1)
        tell_number(page, names[i], figures[i]);
}

static void tell_seat(struct page *page, const struct channel *seat)
{
    /* "In FIFO mode C0 is added." */
    unsigned fifo = channel_in_fifo_mode(seat) ? 0xC0U : 0;
    account_lsr(page, channel_lsr(seat));
    account_iir(page, fifo + channel_cause(seat));
    account_msr(page, channel_msr(seat));
    page_words(page, channel_line(seat) ? "line high" : "line low");
    tell_where(page, channel_in_loopback(seat), "loopback");
    tell_queue(page, "received", &seat->receive);
    tell_queue(page, "to send", &seat->transmit);
    tell_shift_register(page, seat);
    tell_flags(page, seat);
    tell_figures(page, seat);
}

/* "`rank`, and the eight lines from the first-ranked one, each behind a blank" */
static void tell_rank(struct page *page, const struct controller *controller)
{
    struct piece piece = {0};
    piece_put(&piece, "rank");
    for (unsigned place = 1; place <= LINES; place += 1)
        piece_put(&piece, " %u", (controller->last_ranked + place) % LINES);
    page_piece(page, &piece);
}

static void tell_controller(struct page *page, const struct controller *controller)
{
    struct piece base = {0};
    page_words(page, controller_ready(controller) ? "ready" : "not ready");
    page_words(page, controller->level_mode ? "level mode" : "edge mode");
    piece_put(&base, "base %02X", controller->base);
    page_piece(page, &base);
    account_set(page, "requests", controller_standing(controller));
    account_set(page, "mask", controller->mask);
    account_set(page, "in service", controller->in_service);
    tell_rank(page, controller);
    tell_where(page, controller->special_mask, "special mask");
    tell_where(page, controller->automatic_end, "automatic end");
    tell_where(page, controller->automatic_rotation, "rotation");
    tell_where(page, controller->reads_in_service, "port 0 reads in service");
    page_words(page, controller_output(controller) ? "output high" : "output low");
}

/* "A head is 12 blanks, the name and `: `" */
static void begin(struct page *page, const char *name)
{
    struct piece head = {0};
    piece_put(&head, "%*s%s: ", (int)PAGE_INDENT, "", name);
    page_begin(page, head.text);
}

void state_tell(struct page *page, const struct bench *bench)
{
    for (unsigned seat = 0; seat < SEATS; seat += 1) {
        struct piece name = {0};
        if (!state_in_use(&bench->seats[seat]))
            continue;
        piece_put(&name, "seat %u", seat);
        begin(page, name.text);
        tell_seat(page, &bench->seats[seat]);
        page_end(page);
    }
    begin(page, "controller");
    tell_controller(page, &bench->controller);
    page_end(page);
}
