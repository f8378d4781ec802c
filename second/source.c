#include "source.h"

#include "output.h"

int source_begin(struct source *source, const char *name)
{
    source->is_lesson = name != NULL;
    if (source->is_lesson)
        return lesson_read(&source->lesson, name);
    records_begin(&source->records, stdin);
    return 0;
}

struct lesson_record source_next(struct source *source)
{
    if (source->is_lesson)
        return lesson_next(&source->lesson);
    struct lesson_record record = {0};
    record.length = records_next(&source->records, record.bytes);
    return record;
}

struct outcome source_event(struct bench *bench, const struct lesson_record *record, struct event *event)
{
    /* "record of 1 to 3 bytes at the end of input" */
    if (record->length < RECORD_BYTES)
        return refused(REFUSAL_SHORT);
    *event = record_event(record->bytes);
    return bench_event(bench, *event);
}

int source_result(const struct source *source, int result)
{
    return source->is_lesson ? output_result(result) : answers_result(result);
}
