#include "page.h"

#include <stdio.h>
#include <string.h>

#define PARTING "; "

/* S225: the last byte is kept for the line feed. */
static void put(struct page *page, char byte)
{
    if (page->length + 1 < PAGE_BYTES) {
        page->bytes[page->length] = byte;
        page->length += 1;
    }
}

void page_byte(struct page *page, char byte)
{
    put(page, byte);
    page->column += 1;
}

static void put_text(struct page *page, const char *text)
{
    for (; *text != '\0'; text += 1)
        page_byte(page, *text);
}

void page_new_line(struct page *page)
{
    put(page, '\n');
    page->column = 0;
    while (page->column < PAGE_INDENT)
        page_byte(page, ' ');
}

void page_begin(struct page *page, const char *head)
{
    page->has_piece = false;
    page->column = 0;
    page->length = 0;
    put_text(page, head);
}

void page_piece(struct page *page, const struct piece *piece)
{
    if (piece->length == 0)
        return;
    const char *parting = page->has_piece ? PARTING : "";
    if (page->column + strlen(parting) + piece->length > PAGE_COLUMNS)
        page_new_line(page);
    else
        put_text(page, parting);
    put_text(page, piece->text);
    page->has_piece = true;
    if (page->pieces.take != NULL)
        page->pieces.take(page->pieces.with, piece->text, piece->length);
}

void page_words(struct page *page, const char *words)
{
    struct piece piece = {0};
    piece_put(&piece, "%s", words);
    page_piece(page, &piece);
}

void page_end(struct page *page)
{
    page->bytes[page->length] = '\n';
    if (page->pages.take != NULL)
        page->pages.take(page->pages.with, page->bytes, page->length + 1);
    else
        fwrite(page->bytes, 1, page->length + 1, stdout);
}
