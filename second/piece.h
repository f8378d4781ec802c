#ifndef PIECE_H
#define PIECE_H

#include <stddef.h>

/* docs/TELLING.md: "A piece has at most 68 characters, and none is cut." A
   program that would make a longer one stops. */
#define PIECE_MOST 68U

struct piece {
    size_t length;
    char text[PIECE_MOST + 1];
};

/* Each puts something behind what the piece has already. */
__attribute__((format(printf, 2, 3))) void piece_put(struct piece *piece, const char *format, ...);

/* "A letter is a byte, and behind it, where it is 21 to 7E, a blank and the
   character in single quotation marks" */
void piece_letter(struct piece *piece, unsigned byte);

/* The words of the bits that are set, "each behind a blank, lowest first". */
void piece_words(struct piece *piece, const char *const words[], unsigned count, unsigned bits);

/* The same, and ` none` where no bit is set. */
void piece_words_or_none(struct piece *piece, const char *const words[], unsigned count, unsigned bits);

/* "none, or ` with` and the words of the bits that are set"; above 7 as a byte. */
void piece_marks(struct piece *piece, unsigned marks);

/* "the numbers of the lines whose bits are set, upward" */
void piece_set(struct piece *piece, unsigned set);

#endif
