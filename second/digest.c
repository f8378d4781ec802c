#include "digest.h"

/* TRIALS.md: the largest prime below 2 to the 31. */
#define DIGEST_PRIME 2147483647U
#define DIGEST_FACTOR 1000003U

uint64_t digest_add(uint64_t digest, uint64_t value)
{
    return (digest * DIGEST_FACTOR + value + 1U) % DIGEST_PRIME;
}

uint64_t digest_outcome(uint64_t digest, const struct bench *bench, struct outcome outcome)
{
    unsigned refusal = (unsigned)outcome.refusal;
    return digest_add(digest, refusal * 8192U + outcome.answer * 2U + bench_output(bench));
}

static uint64_t digest_places(uint64_t digest, const struct bench *bench)
{
    for (unsigned line = 0; line <= LINES; line += 1) {
        struct outcome place = bench_place(bench, line);
        digest = digest_add(digest, (unsigned)place.refusal * 4096U + place.answer);
    }
    return digest;
}

uint64_t digest_letter(uint64_t digest, struct outcome outcome)
{
    unsigned figures = outcome.marks * 256U + outcome.behind;
    return digest_add(digest, outcome.is_letter ? 1U + figures : 0U);
}

static uint64_t digest_ledger(uint64_t digest, const struct bench *bench, struct event event)
{
    struct ledger_answer answer = bench_ledger(bench, event.seat % LEDGER_SEATS);
    digest = digest_add(digest, (unsigned)answer.refusal);
    for (unsigned i = 0; answer.refusal == REFUSAL_NONE && i < FIGURES; i += 1)
        digest = digest_add(digest, answer.figures[i]);
    return digest;
}

void digests_event(struct digests *digests, struct bench *bench, struct event event)
{
    struct outcome outcome = bench_event(bench, event);
    digests->digest = digest_places(digest_outcome(digests->digest, bench, outcome), bench);
    digests->letters = digest_letter(digests->letters, outcome);
    digests->ledgers = digest_ledger(digests->ledgers, bench, event);
}
