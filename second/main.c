#include <stdbool.h>
#include <stdint.h>
#include <stdio.h>
#include <string.h>

#include "coverage.h"
#include "image_file.h"
#include "listing.h"
#include "numbers.h"
#include "rates.h"
#include "saves.h"
#include "sets.h"
#include "sheet_agree.h"
#include "sheet_lines.h"
#include "sheet_numbers.h"
#include "sheets.h"
#include "spoons.h"
#include "starts.h"
#include "tellings.h"
#include "trials.h"

#define RESULT_USAGE 2

/* A command is run alone, or with the words that follow its name; what it has
   no function for it does not take. */
struct command {
    const char *name;
    const char *words;
    int (*alone)(void);
    int (*run)(int count, char **words);
};

static int run_listing(int count, char **words)
{
    struct saves saves;
    struct bench bench = bench_at_power_up();
    if (!saves_parse(count, words, &saves))
        return RESULT_USAGE;
    /* "where it is refused .. nothing is run and no file touched" */
    if (saves.restore != NULL && image_file_restore(&bench, saves.restore) != 0)
        return 1;
    return listing_run(bench, &saves);
}

static bool parse_number(const char *word, uint64_t largest, uint64_t *number)
{
    return number_parse(word, number) && *number <= largest;
}

/* The number of a set, start or clock, of which there are `total`; 0 if no word
   is left for it. */
static bool parse_choice(int count, char **words, unsigned total, unsigned *choice)
{
    uint64_t number = 0;
    if (count > 0 && !parse_number(words[0], total - 1U, &number))
        return false;
    *choice = (unsigned)number;
    return true;
}

/* A start is a number, and what docs/TELLING.md shows is asked for by a word. */
static int run_show(int count, char **words)
{
    unsigned start = 0;
    if (count <= 1 && parse_choice(count, words, STARTS, &start))
        return listing_show(starts[start]());
    return tellings_show(count, words);
}

/* Of the words, `most` at most. */
static bool parse_trial(int count, char **words, int most, struct trial *trial)
{
    uint64_t seed = 0;
    if (count < 2 || count > most || !parse_number(words[0], UINT32_MAX, &seed))
        return false;
    trial->seed = (uint32_t)seed;
    /* NUMBER_MOST would not tell a count from a larger one. */
    return parse_number(words[1], NUMBER_MOST - 1U, &trial->count) &&
           parse_choice(count - 2, words + 2, SETS, &trial->set) &&
           parse_choice(count - 3, words + 3, STARTS, &trial->start);
}

/* The words for other trials than a stream. */
static const struct {
    const char *word;
    int (*run)(struct trial trial);
} other_trials[] = {
    {"images", trials_run_one_of_images},
    {"pairs", trials_run_one_of_pairs},
};

static int run_trials(int count, char **words)
{
    struct trial trial;
    int (*trials_of)(struct trial) = trials_run_one;
    for (size_t i = 0; count > 0 && i < sizeof other_trials / sizeof other_trials[0]; i += 1)
        if (strcmp(words[0], other_trials[i].word) == 0)
            trials_of = other_trials[i].run;
    int word = trials_of == trials_run_one ? 0 : 1;
    return parse_trial(count - word, words + word, 4, &trial) ? trials_of(trial) : RESULT_USAGE;
}

static int run_generate(int count, char **words)
{
    struct trial trial;
    return parse_trial(count, words, 3, &trial) ? trials_generate(trial) : RESULT_USAGE;
}

/* S73: a clock of any size is a clock. */
static int run_settings(int count, char **words)
{
    uint64_t clock = 0;
    return count == 1 && number_parse(words[0], &clock) ? sheets_read(clock) : RESULT_USAGE;
}

static int run_settings_lines(int count, char **words)
{
    unsigned clock = 0;
    if (count != 1 || !parse_choice(count, words, CLOCKS, &clock))
        return RESULT_USAGE;
    return sheet_lines_run(clock);
}

static const struct command commands[] = {
    {"listing", " [--restore FILE] [--save-at N|start|end FILE].. [--tallies]", NULL, run_listing},
    {"show", " [START | each|end [--from IMAGE] [LESSON]]", NULL, run_show},
    {"explain", TELLINGS_WORDS, NULL, tellings_explain},
    {"explain-show", " each|end" TELLINGS_WORDS, NULL, tellings_explain_show},
    {"vcd", TELLINGS_WORDS, NULL, tellings_timeline},
    {"telling-coverage", TELLINGS_WORDS, NULL, tellings_coverage},
    {"rates", "", rates_run, NULL},
    {"spoons", "", spoons_run, NULL},
    {"trials", " [[images|pairs] SEED COUNT [SET [START]]]", trials_run_all, run_trials},
    {"generate", " SEED COUNT [SET]", NULL, run_generate},
    {"coverage", "", coverage_run, NULL},
    {"settings", " CLOCK", NULL, run_settings},
    {"settings-write", "", sheets_write, NULL},
    {"settings-lines", " CLOCK", NULL, run_settings_lines},
    {"settings-numbers", "", sheet_numbers_run, NULL},
    {"settings-agree", "", sheet_agree_run, NULL},
};

static int run(const struct command *command, int count, char **words)
{
    if (count == 0 && command->alone != NULL)
        return command->alone();
    return command->run != NULL ? command->run(count, words) : RESULT_USAGE;
}

static int usage(void)
{
    for (size_t i = 0; i < sizeof commands / sizeof commands[0]; i += 1)
        fprintf(stderr, "usage: second %s%s\n", commands[i].name, commands[i].words);
    return RESULT_USAGE;
}

int main(int argc, char **argv)
{
    for (size_t i = 0; argc > 1 && i < sizeof commands / sizeof commands[0]; i += 1)
        if (strcmp(argv[1], commands[i].name) == 0) {
            int result = run(&commands[i], argc - 2, argv + 2);
            return result == RESULT_USAGE ? usage() : result;
        }
    return usage();
}
