#include "trials.h"

#include <inttypes.h>
#include <stdio.h>

#include "digest.h"
#include "image_trial.h"
#include "output.h"
#include "pairs.h"
#include "starts.h"
#include "stream.h"

const struct trial trials[TRIALS] = {
    {1, 1000, 0, 0}, {2, 1000, 0, 0}, {3, 1000, 0, 0}, {4, 1000, 0, 0},
    {5, 200000, 0, 0}, {6, 200000, 0, 0}, {7, 200000, 0, 0}, {8, 200000, 0, 0},
    {9, 200000, 0, 0}, {10, 200000, 0, 0}, {11, 200000, 0, 0}, {12, 200000, 0, 0},
    {13, 200000, 0, 0}, {14, 200000, 0, 0}, {15, 200000, 0, 0}, {4294967295, 200000, 0, 0},
    {16, 1000, 1, 0}, {17, 200000, 1, 0}, {18, 200000, 1, 0}, {19, 200000, 1, 0},
    {20, 1000, 0, 1}, {21, 200000, 0, 1}, {22, 200000, 1, 1},
};

static int print_three(struct trial trial, uint64_t first, uint64_t second, uint64_t third)
{
    printf("%" PRIu32 " %" PRIu64 " %08" PRIX64 " %08" PRIX64 " %08" PRIX64 "\n", trial.seed,
           trial.count, first, second, third);
    return output_result(0);
}

static int print_digests(struct trial trial, struct digests digests)
{
    return print_three(trial, digests.digest, digests.letters, digests.ledgers);
}

int trials_run_one(struct trial trial)
{
    struct bench bench = starts[trial.start]();
    struct stream stream = stream_begin(trial.seed, trial.set);
    struct digests digests = {0, 0, 0};
    for (uint64_t i = 0; i < trial.count; i += 1)
        digests_event(&digests, &bench, stream_next(&stream));
    return print_digests(trial, digests);
}

int trials_run_one_of_images(struct trial trial)
{
    return print_digests(trial, image_trial_digests(trial, NULL));
}

int trials_run_one_of_pairs(struct trial trial)
{
    struct sights sights = pair_sights(trial, NULL);
    return print_three(trial, sights.digest, sights.seen[SIDE_LEFT], sights.seen[SIDE_RIGHT]);
}

static int run_each(int (*run)(struct trial), const struct trial *list, size_t count)
{
    int result = 0;
    for (size_t i = 0; i < count; i += 1)
        if (run(list[i]) != 0)
            result = 1;
    return result;
}

int trials_run_all(void)
{
    int streams = run_each(trials_run_one, trials, TRIALS);
    int images = run_each(trials_run_one_of_images, image_trials, IMAGE_TRIALS);
    int couples = run_each(trials_run_one_of_pairs, pairs, PAIRS);
    return streams | images | couples;
}

int trials_generate(struct trial trial)
{
    struct stream stream = stream_begin(trial.seed, trial.set);
    for (uint64_t i = 0; i < trial.count; i += 1) {
        struct event event = stream_next(&stream);
        putchar((int)event.kind);
        putchar((int)event.seat);
        putchar((int)event.number);
        putchar((int)event.value);
    }
    return output_result(0);
}
