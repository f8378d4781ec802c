#ifndef PAGE_H
#define PAGE_H

#include <stdbool.h>
#include <stddef.h>

#include "piece.h"
#include "taker.h"

/* docs/TELLING.md, A page: "lines of at most 80 columns", which go on "behind 12
   blanks", and "at most 4096 bytes with the last line feed". */
#define PAGE_COLUMNS 80U
#define PAGE_INDENT 12U
#define PAGE_BYTES 4096U

struct page {
    /* Who is given each piece, and each whole page; standard output where the
       second takes none. */
    struct taker pieces;
    struct taker pages;
    bool has_piece;
    size_t column; /* the last that is full */
    size_t length;
    char bytes[PAGE_BYTES];
};

void page_begin(struct page *page, const char *head);

/* Behind `; `, or on a new line where it "would then end behind column 80". One
   that is empty "is left out". */
void page_piece(struct page *page, const struct piece *piece);

/* A piece that has no figures. */
void page_words(struct page *page, const char *words);

/* A byte as it is, and a new line behind 12 blanks. */
void page_byte(struct page *page, char byte);
void page_new_line(struct page *page);

/* The page with its last line feed goes out. */
void page_end(struct page *page);

#endif
