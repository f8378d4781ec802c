#include "lesson.h"

#include <stdio.h>
#include <string.h>

#include "numbers.h"

static char text[LESSON_MOST + 1U];

static int tell(const char *what, const char *name)
{
    fprintf(stderr, "%s %s\n", what, name);
    return 1;
}

/* A blank that may stand within a line. */
static bool is_blank(char character)
{
    return character == ' ' || character == '\t' || character == '\r';
}

static bool is_digit(char character)
{
    uint64_t number = 0;
    return number_add(&number, 16, character);
}

static char here(const struct lesson *lesson)
{
    return lesson->at < lesson->length ? lesson->text[lesson->at] : '\0';
}

static void pass_blanks(struct lesson *lesson)
{
    while (lesson->at < lesson->length && is_blank(here(lesson)))
        lesson->at += 1;
}

/* Up to the line feed, or to the end. */
static void pass_line(struct lesson *lesson)
{
    while (lesson->at < lesson->length && here(lesson) != '\n')
        lesson->at += 1;
}

/* To the next character that is neither white space nor in a comment. */
static void pass_to_record(struct lesson *lesson)
{
    pass_blanks(lesson);
    while (here(lesson) == '#' || here(lesson) == '\n') {
        if (here(lesson) == '#')
            pass_line(lesson);
        else
            lesson->at += 1;
        pass_blanks(lesson);
    }
}

/* Two digits that stand together; false, and nothing taken, where they do not. */
static bool take_byte(struct lesson *lesson, uint8_t *byte)
{
    uint64_t number = 0;
    const char *digits = lesson->text + lesson->at;
    if (lesson->length - lesson->at < 2 || !is_digit(digits[0]) || !is_digit(digits[1]))
        return false;
    number_add(&number, 16, digits[0]);
    number_add(&number, 16, digits[1]);
    *byte = (uint8_t)number;
    lesson->at += 2;
    return true;
}

/* "It begins with its `#` and ends before the first carriage return or line
   feed, or where the text ends." */
static struct comment comment_here(const struct lesson *lesson)
{
    struct comment comment = {lesson->text + lesson->at, 0};
    if (here(lesson) != '#')
        return comment;
    while (lesson->at + comment.length < lesson->length && comment.bytes[comment.length] != '\r'
           && comment.bytes[comment.length] != '\n')
        comment.length += 1;
    return comment;
}

struct lesson_record lesson_next(struct lesson *lesson)
{
    struct lesson_record record = {0};
    pass_to_record(lesson);
    while (record.length < RECORD_BYTES && take_byte(lesson, &record.bytes[record.length])) {
        record.length += 1;
        pass_blanks(lesson);
    }
    /* "neither has one that is cut off" */
    if (record.length == RECORD_BYTES)
        record.comment = comment_here(lesson);
    return record;
}

void lesson_rewind(struct lesson *lesson)
{
    lesson->at = 0;
}

/* Whether all of the text is records: what is left behind the last of them, and
   behind one that is cut off, is white space and comments. */
static bool is_sound(struct lesson *lesson)
{
    size_t count = 0;
    struct lesson_record record = lesson_next(lesson);
    while (record.length == RECORD_BYTES) {
        count += 1;
        record = lesson_next(lesson);
    }
    count += record.length > 0 ? 1U : 0U;
    pass_to_record(lesson);
    bool whole = lesson->at == lesson->length;
    lesson_rewind(lesson);
    return whole && count <= LESSON_RECORDS_MOST;
}

int lesson_read(struct lesson *lesson, const char *name)
{
    FILE *file = fopen(name, "rb");
    if (file == NULL)
        return tell("cannot open", name);
    size_t length = fread(text, 1, sizeof text, file);
    bool failed = ferror(file) != 0;
    fclose(file);
    if (failed)
        return tell("cannot read", name);
    *lesson = (struct lesson){text, length, 0};
    if (length > LESSON_MOST || !is_sound(lesson))
        return tell("no lesson:", name);
    return 0;
}
