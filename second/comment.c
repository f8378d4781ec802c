#include "comment.h"

/* "Its bytes are told as they are, but one below 20, and 7F, as a blank." */
static char told_as(char byte)
{
    unsigned char value = (unsigned char)byte;
    return value < 0x20 || value == 0x7F ? ' ' : byte;
}

/* "the bytes up to the next that is told as a blank, or the end" */
static size_t word_at(struct comment comment, size_t at)
{
    size_t end = at;
    while (end < comment.length && told_as(comment.bytes[end]) != ' ')
        end += 1;
    return end - at;
}

/* "Such a line begins with 12 blanks and `# `." */
static void go_on(struct page *page)
{
    page_new_line(page);
    page_byte(page, '#');
    page_byte(page, ' ');
}

static void tell_byte(struct page *page, struct comment comment, size_t at)
{
    char byte = told_as(comment.bytes[at]);
    /* "where a blank is due, and the word behind it .. would end behind column
       80, a new line begins in place of that blank" */
    if (byte == ' ' && page->column + 1 + word_at(comment, at + 1) > PAGE_COLUMNS) {
        go_on(page);
        return;
    }
    /* "where column 80 is full, a new line begins before the byte" */
    if (page->column == PAGE_COLUMNS)
        go_on(page);
    page_byte(page, byte);
}

void comment_tell(struct page *page, struct comment comment)
{
    if (comment.length == 0)
        return;
    page_new_line(page);
    /* No byte of the comment is told behind so many. */
    for (size_t at = 0; at < comment.length && at < PAGE_BYTES; at += 1)
        tell_byte(page, comment, at);
}
