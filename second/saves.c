#include "saves.h"

#include <stdio.h>
#include <string.h>

#include "image_file.h"
#include "numbers.h"

#define WORD_RESTORE "--restore"
#define WORD_SAVE "--save-at"
#define WORD_TALLIES "--tallies"
#define WORD_START "start"
#define WORD_END "end"

/* A word with those that belong to it. */
#define RESTORE_WORDS 2
#define SAVE_WORDS 3
#define TALLIES_WORDS 1

static bool equal(const char *word, const char *other)
{
    return strcmp(word, other) == 0;
}

static bool is_moment(const char *word)
{
    uint64_t number;
    return equal(word, WORD_START) || equal(word, WORD_END) || number_parse(word, &number);
}

/* How many words stand together from one of the three on. */
static int words_of(const char *word)
{
    if (equal(word, WORD_SAVE))
        return SAVE_WORDS;
    return equal(word, WORD_RESTORE) ? RESTORE_WORDS : TALLIES_WORDS;
}

bool saves_parse(int count, char **words, struct saves *saves)
{
    *saves = (struct saves){.count = count, .words = words};
    int at = 0;
    while (at < count) {
        int left = count - at;
        bool restores = equal(words[at], WORD_RESTORE) && left >= RESTORE_WORDS;
        bool keeps = equal(words[at], WORD_SAVE) && left >= SAVE_WORDS && is_moment(words[at + 1]);
        bool tallies = equal(words[at], WORD_TALLIES);
        bool again = (restores && saves->restore != NULL) || (tallies && saves->tallies);
        if ((!restores && !keeps && !tallies) || again)
            return false;
        if (restores)
            saves->restore = words[at + 1];
        saves->tallies = saves->tallies || tallies;
        at += words_of(words[at]);
    }
    return true;
}

/* Which words are meant, and what is done with the file of each. */
struct round {
    bool (*meant)(const struct round *round, const char *moment);
    int (*take)(const struct round *round, const char *moment, const char *file);
    const struct bench *bench;
    uint64_t number;
};

static int go_round(const struct saves *saves, const struct round *round)
{
    int result = 0;
    int at = 0;
    while (at < saves->count) {
        char **words = saves->words + at;
        bool saving = equal(words[0], WORD_SAVE);
        if (saving && round->meant(round, words[1]))
            result |= round->take(round, words[1], words[2]);
        at += words_of(words[0]);
    }
    return result;
}

static int save(const struct round *round, const char *moment, const char *file)
{
    (void)moment;
    return image_file_save(round->bench, file);
}

static bool is_start(const struct round *round, const char *moment)
{
    (void)round;
    return equal(moment, WORD_START);
}

static bool is_end(const struct round *round, const char *moment)
{
    (void)round;
    return equal(moment, WORD_END);
}

static bool is_record(const struct round *round, const char *moment)
{
    uint64_t number;
    return number_parse(moment, &number) && number == round->number;
}

static bool is_missed(const struct round *round, const char *moment)
{
    uint64_t number;
    return number_parse(moment, &number) && number >= round->number;
}

static int tell_missed(const struct round *round, const char *moment, const char *file)
{
    (void)round;
    fprintf(stderr, "there is no record %s; %s is not written\n", moment, file);
    return 1;
}

int saves_at_start(const struct saves *saves, const struct bench *bench)
{
    return go_round(saves, &(struct round){.meant = is_start, .take = save, .bench = bench});
}

int saves_at_record(const struct saves *saves, const struct bench *bench, uint64_t number)
{
    return go_round(saves, &(struct round){is_record, save, bench, number});
}

int saves_at_end(const struct saves *saves, const struct bench *bench)
{
    return go_round(saves, &(struct round){.meant = is_end, .take = save, .bench = bench});
}

int saves_missed(const struct saves *saves, uint64_t records)
{
    struct round round = {.meant = is_missed, .take = tell_missed, .number = records};
    return go_round(saves, &round);
}
