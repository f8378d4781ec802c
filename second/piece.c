#include "piece.h"

#include <stdarg.h>
#include <stdio.h>
#include <stdlib.h>

#include "controller.h"
#include "words.h"

void piece_put(struct piece *piece, const char *format, ...)
{
    size_t room = sizeof piece->text - piece->length;
    va_list values;
    va_start(values, format);
    int length = vsnprintf(piece->text + piece->length, room, format, values);
    va_end(values);
    if (length < 0 || (size_t)length >= room) {
        fprintf(stderr, "a piece is longer than %u characters: %s\n", PIECE_MOST, piece->text);
        abort();
    }
    piece->length += (size_t)length;
}

void piece_letter(struct piece *piece, unsigned byte)
{
    piece_put(piece, "%02X", byte);
    if (byte >= 0x21 && byte <= 0x7E)
        piece_put(piece, " '%c'", (int)byte);
}

void piece_words(struct piece *piece, const char *const words[], unsigned count, unsigned bits)
{
    for (unsigned bit = 0; bit < count; bit += 1)
        if ((bits >> bit & 1U) != 0)
            piece_put(piece, " %s", words[bit]);
}

void piece_words_or_none(struct piece *piece, const char *const words[], unsigned count, unsigned bits)
{
    if (bits == 0)
        piece_put(piece, " none");
    piece_words(piece, words, count, bits);
}

void piece_marks(struct piece *piece, unsigned marks)
{
    if (marks > 7)
        piece_put(piece, " with marks %02X", marks);
    else if (marks != 0) {
        piece_put(piece, " with");
        piece_words(piece, mark_words, MARK_WORDS, marks);
    }
}

void piece_set(struct piece *piece, unsigned set)
{
    /* A set with a single line has no bit left without its lowest. */
    if (set == 0)
        piece_put(piece, "no line");
    else
        piece_put(piece, (set & (set - 1U)) == 0 ? "line" : "lines");
    for (unsigned line = 0; line < LINES; line += 1)
        if ((set >> line & 1U) != 0)
            piece_put(piece, " %u", line);
}
