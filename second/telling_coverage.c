#include "telling_coverage.h"

#include <inttypes.h>
#include <stdio.h>
#include <string.h>

#include "pattern.h"
#include "telling_items.h"

#define SHAPE_NAME(name, words) SHAPE_##name,
enum shape { TELLING_SHAPES(SHAPE_NAME) SHAPES };

#define SHAPE_WORDS(name, words) words,
static const char *const shape_words[SHAPES] = {TELLING_SHAPES(SHAPE_WORDS)};

#define INDENT "            "
#define COMMENT INDENT "#"

struct told {
    const struct page *page;
    uint64_t account[ACCOUNT_ITEMS];
    uint64_t state[STATE_ITEMS];
    uint64_t shapes[SHAPES];
    uint64_t foreign; /* pieces that are none of the page's, and faulty pages */
};

/* False where the piece is none of the items. */
static bool take_item(const char *const items[], uint64_t told[], size_t count, const char *text)
{
    bool known = false;
    for (size_t i = 0; i < count; i += 1)
        if (pattern_fits(items[i], text)) {
            told[i] += 1;
            known = true;
        }
    return known;
}

static void take_piece(void *with, const char *text, size_t length)
{
    struct told *told = with;
    /* "A head is 12 blanks, .." is of a state; that of a record begins with its
       number. */
    bool of_state = told->page->bytes[0] == ' ';
    bool known = of_state ? take_item(state_items, told->state, STATE_ITEMS, text)
                          : take_item(account_items, told->account, ACCOUNT_ITEMS, text);
    if (known)
        return;
    printf("no piece of the page: %.*s\n", (int)length, text);
    told->foreign += 1;
}

static void note(struct told *told, enum shape shape, bool holds)
{
    told->shapes[shape] += holds ? 1U : 0U;
}

/* A line of a page without its line feed; `at` is its number in the page. The
   last of a page of 4096 bytes may be cut anywhere (S225). */
struct line {
    const char *text;
    size_t length;
    size_t at;
    bool cut;
};

static bool begins(struct line line, const char *words)
{
    return line.length >= strlen(words) && memcmp(line.text, words, strlen(words)) == 0;
}

static void take_line(struct told *told, struct line line)
{
    bool comment = begins(line, COMMENT);
    bool ends_blank = line.length > 0 && line.text[line.length - 1] == ' ';
    size_t indent = sizeof INDENT - 1;
    note(told, SHAPE_FULL_LINE, !comment && line.length == PAGE_COLUMNS);
    note(told, SHAPE_FULL_COMMENT, comment && line.length == PAGE_COLUMNS);
    note(told, SHAPE_HEAD_ALONE, !comment && line.at == 0 && ends_blank);
    note(told, SHAPE_LONG_HEAD, line.at == 0 && line.length > indent && line.text[0] != ' '
                                     && line.text[indent - 1] != ' ');
    note(told, SHAPE_TIGHT_COMMENT, comment && line.length > indent + 1 && line.text[indent + 1] != ' ');
    for (size_t i = indent + 1; comment && i + 1 < line.length; i += 1)
        note(told, SHAPE_BLANKS_IN_COMMENT, line.text[i] == ' ' && line.text[i + 1] == ' ');
    if (line.length > PAGE_COLUMNS || (line.at > 0 && !line.cut && !begins(line, INDENT))) {
        printf("no line of a page: %.*s\n", (int)line.length, line.text);
        told->foreign += 1;
    }
}

static void take_page(void *with, const char *text, size_t length)
{
    struct told *told = with;
    size_t comments = 0;
    size_t at = 0;
    for (size_t start = 0; start < length; at += 1) {
        const char *end = memchr(text + start, '\n', length - start);
        bool last = end + 1 == text + length;
        struct line line = {text + start, (size_t)(end - (text + start)), at, last && length == PAGE_BYTES};
        take_line(told, line);
        comments += begins(line, COMMENT) ? 1U : 0U;
        start += line.length + 1;
    }
    note(told, SHAPE_COMMENT, comments == 1);
    note(told, SHAPE_LONG_COMMENT, comments > 1);
    note(told, SHAPE_FULL_PAGE, length == PAGE_BYTES);
}

/* 1 where one was never told. */
static int print_counts(const char *const items[], const uint64_t told[], size_t count)
{
    int result = 0;
    for (size_t i = 0; i < count; i += 1) {
        printf("%10" PRIu64 "  %s\n", told[i], items[i]);
        if (told[i] == 0)
            result = 1;
    }
    return result;
}

int telling_coverage(struct bench bench, struct source *source, struct page *page)
{
    struct told told = {.page = page};
    page->pieces = (struct taker){take_piece, &told};
    page->pages = (struct taker){take_page, &told};
    telling_run(bench, source, (struct telling){true, SHOW_EACH}, page);
    int result = print_counts(account_items, told.account, ACCOUNT_ITEMS);
    result |= print_counts(state_items, told.state, STATE_ITEMS);
    result |= print_counts(shape_words, told.shapes, SHAPES);
    return told.foreign > 0 ? 1 : result;
}
