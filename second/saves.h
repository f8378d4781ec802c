#ifndef SAVES_H
#define SAVES_H

#include <stdbool.h>
#include <stdint.h>

#include "bench.h"

/* The words of a listing: `--restore FILE` and `--tallies` once at most, and
   `--save-at N FILE` any number of times. They stay where they are and are looked through at each
   record, so that any number of them needs no room. */
struct saves {
    const char *restore; /* NULL where there is none */
    bool tallies;
    int count;
    char **words;
};

/* False where the words are not such. */
bool saves_parse(int count, char **words, struct saves *saves);

/* Saves the bench into the files asked for at `start`, after a record, or at
   `end`. Not 0 where one could not be written. */
int saves_at_start(const struct saves *saves, const struct bench *bench);
int saves_at_record(const struct saves *saves, const struct bench *bench, uint64_t number);
int saves_at_end(const struct saves *saves, const struct bench *bench);

/* Tells the numbers asked for that a listing of so many records has not. Not 0
   where there is one (S98). */
int saves_missed(const struct saves *saves, uint64_t records);

#endif
