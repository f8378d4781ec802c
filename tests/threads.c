/* Different benches in different threads: each comes to what it comes to alone. */
#include "threads.h"

#include <pthread.h>
#include <stdio.h>

#include "compare.h"
#include "fields.h"
#include "stream.h"

#define EVENTS 50000UL

struct run {
    uint32_t seed;
    struct hailstoat_bench bench;
    uint64_t words; /* all the words, each turned a little further */
};

static void *play(void *argument)
{
    struct run *run = argument;
    struct stream stream = stream_begin(run->seed, 0);
    for (unsigned long at = 0; at < EVENTS; at += 1) {
        struct event e = stream_next(&stream);
        uint64_t word = hailstoat_event(&run->bench, e.kind, e.seat, e.number, (uint8_t)e.value);
        run->words = (run->words << 1 | run->words >> 63) ^ word;
    }
    return NULL;
}

static int same(const struct run *a, const struct run *b)
{
    return a->words == b->words && same_fields(&a->bench, &b->bench);
}

void two_threads(void)
{
    struct run alone[2] = {{.seed = 11}, {.seed = 12}};
    struct run beside[2] = {{.seed = 11}, {.seed = 12}};
    pthread_t threads[2];
    for (int i = 0; i < 2; i += 1)
        play(&alone[i]);
    for (int i = 0; i < 2; i += 1)
        if (pthread_create(&threads[i], NULL, play, &beside[i]) != 0)
            fail("a thread cannot be started");
    for (int i = 0; i < 2; i += 1)
        pthread_join(threads[i], NULL);
    if (!same(&alone[0], &beside[0]) || !same(&alone[1], &beside[1]))
        fail("a bench in a thread is not as it is alone");
    if (same(&alone[0], &alone[1]))
        fail("two seeds come to the same bench");
    printf("threads: two benches of %lu events each, as they are alone\n", EVENTS);
}
