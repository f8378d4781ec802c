#include "coverage.h"

#include <inttypes.h>
#include <stdio.h>

#include "image_trial.h"
#include "output.h"
#include "pairs.h"
#include "scripts.h"
#include "sets.h"
#include "starts.h"
#include "stream.h"
#include "tally.h"
#include "trials.h"

#define TALLY_WORDS(name, words) words,
static const char *const item_words[] = {TALLY_ITEMS(TALLY_WORDS)};

void tally_if(struct tally *tally, bool reached, enum tally_item item)
{
    if (reached)
        tally->reached[item] += 1;
}

enum tally_item tally_behind(enum tally_item item, unsigned further)
{
    return (enum tally_item)((unsigned)item + further);
}

static void tally_moment(struct tally *tally, const struct moment *moment)
{
    tally->events += 1;
    tally_letter(tally, moment);
    tally_loopback(tally, moment);
    tally_ledger(tally, moment);
    if (moment->outcome.refusal != REFUSAL_NONE) {
        tally_refusal(tally, moment);
        return;
    }
    tally->accepted += 1;
    tally_if(tally, true, tally_behind(TALLY_KIND_0, moment->event.kind));
    if (moment->event.kind <= KIND_CHARACTER_TIME) {
        tally_seat(tally, moment);
        tally_timeout(tally, moment);
    }
    tally_controller(tally, moment);
}

static void tally_trial(struct tally *tally, struct trial trial)
{
    struct bench bench = starts[trial.start]();
    struct stream stream = stream_begin(trial.seed, trial.set);
    tally->watches = (struct watches){0};
    for (unsigned seat = 0; seat < SEATS; seat += 1) {
        tally->given[seat] = false;
        tally->moved_inside[seat] = false;
    }
    for (uint64_t i = 0; i < trial.count; i += 1) {
        struct bench before = bench;
        struct event event = stream_next(&stream);
        struct outcome outcome = bench_event(&bench, event);
        tally_moment(tally, &(struct moment){&before, &bench, event, outcome});
    }
}

/* Counts how often each script stands in the set's picks. False where one of
   them is no script of the set. */
static bool tally_picks(unsigned picked[SCRIPTS], const struct set *set)
{
    for (size_t i = 0; i < MOODS * PICKS; i += 1) {
        unsigned script = set->picks[i / PICKS][i % PICKS];
        if (script >= set->scripts)
            return false;
        picked[script] += 1;
    }
    return true;
}

/* TRIALS.md: a set picks its own scripts, and each script is picked by some set. */
static bool sets_as_told(void)
{
    unsigned picked[SCRIPTS] = {0};
    for (size_t i = 0; i < SETS; i += 1)
        if (sets[i].scripts > SCRIPTS || !tally_picks(picked, &sets[i]))
            return false;
    for (size_t i = 0; i < SCRIPTS; i += 1)
        if (picked[i] == 0)
            return false;
    return true;
}

static int tally_print(const struct tally *tally)
{
    int result = 0;
    printf("%10" PRIu64 "  events\n%10" PRIu64 "  accepted\n", tally->events, tally->accepted);
    for (size_t i = 0; i < TALLY_COUNT; i += 1) {
        printf("%10" PRIu64 "  %s\n", tally->reached[i], item_words[i]);
        if (tally->reached[i] == 0)
            result = 1;
    }
    return result;
}

static int cover_streams(void)
{
    struct tally tally = {0};
    for (size_t i = 0; i < TRIALS; i += 1)
        tally_trial(&tally, trials[i]);
    return tally_print(&tally);
}

static int cover_images(void)
{
    struct image_tally tally = {0};
    for (size_t i = 0; i < IMAGE_TRIALS; i += 1)
        image_trial_digests(image_trials[i], &tally);
    return image_tally_print(&tally);
}

static int cover_pairs(void)
{
    struct pair_tally tally = {0};
    for (size_t i = 0; i < PAIRS; i += 1)
        pair_sights(pairs[i], &tally);
    return pair_tally_print(&tally);
}

int coverage_run(void)
{
    int result = 0;
    if (!sets_as_told()) {
        printf("%10u  sets whose picks are as TRIALS.md tells\n", 0U);
        result = 1;
    }
    result |= cover_streams();
    result |= cover_images();
    result |= cover_pairs();
    return output_result(result);
}
