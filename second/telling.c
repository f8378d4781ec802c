#include "telling.h"

#include <inttypes.h>
#include <stdio.h>

#include "account.h"
#include "comment.h"
#include "state.h"

#define HEAD_MOST 64U

/* "the line as it was, without its line feed": record number, refusal number,
   answer, output. */
static void begin_line(struct page *page, uint64_t number, const struct moment *moment, size_t columns)
{
    char head[HEAD_MOST];
    struct outcome outcome = moment->outcome;
    snprintf(head, HEAD_MOST, "%" PRIu64 " %u %03X %u", number, (unsigned)outcome.refusal, outcome.answer,
             bench_output(moment->after));
    page_begin(page, head);
    while (page->column < columns)
        page_byte(page, ' ');
}

static void explain(struct page *page, uint64_t number, const struct moment *moment, struct comment comment)
{
    /* "and blanks up to column 12, one at least" */
    begin_line(page, number, moment, PAGE_INDENT - 1U);
    page_byte(page, ' ');
    account_done(page, moment);
    account_came(page, moment);
    account_moved(page, moment);
    comment_tell(page, comment);
    page_end(page);
}

static void list(struct page *page, uint64_t number, const struct moment *moment)
{
    begin_line(page, number, moment, 0);
    page_end(page);
}

void telling_run(struct bench bench, struct source *source, struct telling telling, struct page *page)
{
    uint64_t number = 0;
    struct lesson_record record = source_next(source);
    while (record.length > 0) {
        struct bench before = bench;
        struct moment moment = {.before = &before, .after = &bench};
        moment.outcome = source_event(&bench, &record, &moment.event);
        if (telling.explains)
            explain(page, number, &moment, record.comment);
        else
            list(page, number, &moment);
        if (telling.show == SHOW_EACH)
            state_tell(page, &bench);
        number += 1;
        record = record.length == RECORD_BYTES ? source_next(source) : (struct lesson_record){0};
    }
    if (telling.show == SHOW_END)
        state_tell(page, &bench);
}
