/* What moved: pieces in order, "each only where it has changed by the record". */
#include "account.h"
#include "words.h"

/* A number, where it is another than before. */
static void tell_number(struct page *page, const char *name, unsigned before, unsigned after)
{
    struct piece piece = {0};
    if (before == after)
        return;
    piece_put(&piece, "%s %u", name, after);
    page_piece(page, &piece);
}

/* One of two words behind the name, where a yes has become a no or the reverse. */
struct turn {
    const char *name;
    const char *yes;
    const char *no;
};

static void tell_turn(struct page *page, struct turn turn, bool before, bool after)
{
    struct piece piece = {0};
    if (before == after)
        return;
    piece_put(&piece, "%s%s", turn.name, after ? turn.yes : turn.no);
    page_piece(page, &piece);
}

static void tell_set_or_cleared(struct page *page, const char *name, bool before, bool after)
{
    tell_turn(page, (struct turn){name, " set", " cleared"}, before, after);
}

/* The bits from `first` to `last`, "a piece each". */
static void tell_bits(struct page *page, const char *const words[], unsigned first, unsigned last,
                      unsigned before, unsigned after)
{
    for (unsigned bit = first; bit <= last; bit += 1)
        tell_set_or_cleared(page, words[bit], (before >> bit & 1U) != 0, (after >> bit & 1U) != 0);
}

/* "a piece a line, line 0 first" */
static void tell_lines(struct page *page, const char *yes, const char *no, unsigned before, unsigned after)
{
    for (unsigned line = 0; line < LINES; line += 1) {
        struct piece name = {0};
        piece_put(&name, "line %u ", line);
        tell_turn(page, (struct turn){name.text, yes, no}, (before >> line & 1U) != 0,
                  (after >> line & 1U) != 0);
    }
}

static void tell_seat(struct page *page, const struct channel *before, const struct channel *after)
{
    tell_number(page, "queued", before->receive.count, after->receive.count);
    tell_number(page, "to send", before->transmit.count, after->transmit.count);
    tell_turn(page, (struct turn){"shift register ", "loaded", "empty"}, before->shift_full,
              after->shift_full);
    tell_bits(page, lsr_words, 1, 4, channel_lsr(before), channel_lsr(after));
    tell_set_or_cleared(page, "time-out", before->timeout_count == 4, after->timeout_count == 4);
    tell_set_or_cleared(page, "holding-empty flag", before->holding_empty, after->holding_empty);
    tell_bits(page, msr_words, 0, 3, channel_msr(before), channel_msr(after));
    tell_turn(page, (struct turn){"loopback ", "on", "off"}, channel_in_loopback(before),
              channel_in_loopback(after));
}

static void tell_first(struct page *page, const struct controller *before, const struct controller *after)
{
    unsigned first = (after->last_ranked + 1) % LINES;
    struct piece piece = {0};
    if (before->last_ranked == after->last_ranked)
        return;
    piece_put(&piece, "line %u ranks first", first);
    page_piece(page, &piece);
}

void account_moved(struct page *page, const struct moment *moment)
{
    const struct bench *before = moment->before;
    const struct bench *after = moment->after;
    unsigned seat = account_seat(moment);
    if (seat < SEATS)
        tell_seat(page, &before->seats[seat], &after->seats[seat]);
    tell_turn(page, (struct turn){"controller ", "ready", "not ready"}, controller_ready(&before->controller),
              controller_ready(&after->controller));
    tell_lines(page, "rises", "falls", bench_lines(before), bench_lines(after));
    tell_lines(page, "in service", "out of service", before->controller.in_service,
               after->controller.in_service);
    tell_first(page, &before->controller, &after->controller);
    tell_turn(page, (struct turn){"output ", "rises", "falls"}, bench_output(before) != 0,
              bench_output(after) != 0);
}
