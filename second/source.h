#ifndef SOURCE_H
#define SOURCE_H

#include "lesson.h"
#include "records.h"

/* Where records come from: a lesson, or standard input without comments. */
struct source {
    bool is_lesson;
    struct lesson lesson;
    struct records records;
};

/* From the lesson of this name; from standard input where it is NULL. Not 0
   where there is no such lesson. */
int source_begin(struct source *source, const char *name);

/* A record of no bytes where there are no more: "It stops after refusal 4." */
struct lesson_record source_next(struct source *source);

/* What the event of a whole record is, and what it gives; one that is cut off
   is refused by 4. */
struct outcome source_event(struct bench *bench, const struct lesson_record *record, struct event *event);

/* The result of a command that has taken all records. */
int source_result(const struct source *source, int result);

#endif
