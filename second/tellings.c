#include "tellings.h"

#include <string.h>

#include "image_file.h"
#include "source.h"
#include "telling.h"
#include "telling_coverage.h"
#include "timeline.h"

#define WORD_FROM "--from"

/* What a command begins with, of which there is one. */
static struct {
    struct bench bench;
    struct source source;
    struct page page;
} start;

/* The bench and the records that the words name. */
static int begin(int count, char **words)
{
    bool restores = count >= 2 && strcmp(words[0], WORD_FROM) == 0;
    int left = restores ? count - 2 : count;
    if (left > 1 || (left == 1 && words[count - 1][0] == '-'))
        return TELLINGS_USAGE;
    start.bench = bench_at_power_up();
    /* "where it is refused .. nothing is run" */
    if (restores && image_file_restore(&start.bench, words[1]) != 0)
        return 1;
    return source_begin(&start.source, left == 1 ? words[count - 1] : NULL);
}

static int tell(int count, char **words, struct telling telling)
{
    int result = begin(count, words);
    if (result != 0)
        return result;
    telling_run(start.bench, &start.source, telling, &start.page);
    return source_result(&start.source, 0);
}

static int tell_with_state(int count, char **words, bool explains)
{
    bool each = count > 0 && strcmp(words[0], "each") == 0;
    bool end = count > 0 && strcmp(words[0], "end") == 0;
    if (!each && !end)
        return TELLINGS_USAGE;
    return tell(count - 1, words + 1, (struct telling){explains, each ? SHOW_EACH : SHOW_END});
}

int tellings_explain(int count, char **words)
{
    return tell(count, words, (struct telling){.explains = true});
}

int tellings_show(int count, char **words)
{
    return tell_with_state(count, words, false);
}

int tellings_explain_show(int count, char **words)
{
    return tell_with_state(count, words, true);
}

int tellings_timeline(int count, char **words)
{
    int result = begin(count, words);
    if (result != 0)
        return result;
    timeline_run(start.bench, &start.source);
    return source_result(&start.source, 0);
}

int tellings_coverage(int count, char **words)
{
    int result = begin(count, words);
    if (result != 0)
        return result;
    return source_result(&start.source, telling_coverage(start.bench, &start.source, &start.page));
}
