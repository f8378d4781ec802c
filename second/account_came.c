/* What came of it: "One piece, by the answer." */
#include "account.h"
#include "words.h"

static void tell_bits(struct page *page, const char *name, unsigned byte, const char *const words[8])
{
    struct piece piece = {0};
    piece_put(&piece, "%s %02X:", name, byte);
    piece_words_or_none(&piece, words, 8, byte);
    page_piece(page, &piece);
}

void account_lsr(struct page *page, unsigned lsr)
{
    tell_bits(page, "LSR", lsr, lsr_words);
}

void account_msr(struct page *page, unsigned msr)
{
    tell_bits(page, "MSR", msr, msr_words);
}

void account_iir(struct page *page, unsigned iir)
{
    struct piece piece = {0};
    piece_put(&piece, "IIR %02X: %s", iir, cause_words(iir));
    page_piece(page, &piece);
}

void account_set(struct page *page, const char *name, unsigned set)
{
    struct piece piece = {0};
    piece_put(&piece, "%s %02X: ", name, set);
    piece_set(&piece, set);
    page_piece(page, &piece);
}

static void tell_letter(struct page *page, const struct moment *moment)
{
    struct piece piece = {0};
    const struct channel *before = &moment->before->seats[moment->event.seat];
    piece_put(&piece, "RBR ");
    piece_letter(&piece, moment->outcome.answer);
    piece_marks(&piece, moment->outcome.marks);
    if (queue_is_empty(&before->receive))
        piece_put(&piece, " again: nothing waits");
    else if (moment->outcome.behind > 0)
        piece_put(&piece, ", %u behind", moment->outcome.behind);
    page_piece(page, &piece);
}

static void tell_register(struct page *page, const struct moment *moment)
{
    unsigned answer = moment->outcome.answer;
    const char *name = register_name(moment->event.number, false, account_divisor(moment));
    struct piece piece = {0};
    switch (moment->event.number) {
    case 2: account_iir(page, answer); break;
    case 5: account_lsr(page, answer); break;
    case 6: account_msr(page, answer); break;
    default:
        piece_put(&piece, "%s %02X", name, answer);
        page_piece(page, &piece);
        break;
    }
}

static void tell_time(struct page *page, unsigned answer)
{
    struct piece piece = {0};
    if (answer == ANSWER_IDLE)
        piece_put(&piece, "nothing is sent");
    else if (answer == ANSWER_BREAK)
        piece_put(&piece, "break is sent");
    else {
        piece_put(&piece, "sent ");
        piece_letter(&piece, answer);
    }
    page_piece(page, &piece);
}

static void tell_port(struct page *page, const struct moment *moment)
{
    const char *at_port_0 = moment->before->controller.reads_in_service ? "in service" : "requests";
    account_set(page, moment->event.number == 0 ? at_port_0 : "mask", moment->outcome.answer);
}

static void tell_vector(struct page *page, unsigned answer)
{
    struct piece piece = {0};
    piece_put(&piece, "vector %02X: ", answer & 0xFFU);
    if (answer >= ANSWER_SPURIOUS)
        piece_put(&piece, "spurious");
    else
        piece_put(&piece, "line %u", answer & 7U);
    page_piece(page, &piece);
}

static void tell_refusal(struct page *page, enum refusal refusal)
{
    struct piece piece = {0};
    piece_put(&piece, "refused %u: %s", (unsigned)refusal, refusal_words(refusal));
    page_piece(page, &piece);
}

void account_came(struct page *page, const struct moment *moment)
{
    if (moment->outcome.refusal != REFUSAL_NONE) {
        tell_refusal(page, moment->outcome.refusal);
        return;
    }
    if (moment->outcome.is_letter) {
        tell_letter(page, moment);
        return;
    }
    switch (moment->event.kind) {
    case KIND_READ_REGISTER: tell_register(page, moment); break;
    case KIND_CHARACTER_TIME: tell_time(page, moment->outcome.answer); break;
    case KIND_READ_CONTROLLER: tell_port(page, moment); break;
    case KIND_ACKNOWLEDGE: tell_vector(page, moment->outcome.answer); break;
    default: break; /* "000: no piece" */
    }
}
