#include "sheet_faults.h"

#include <string.h>

#define LONGEST 70000U

/* A text, with one character put before it and behind it so many times. */
struct fault {
    const char *text;
    size_t length;
    char filler;
    unsigned before;
    unsigned behind;
};

/* A text may have zero bytes, so its length is that of the literal. */
#define LINE(text) {text, sizeof text - 1, 0, 0, 0}
#define BEFORE(filler, times, text) {text, sizeof text - 1, filler, times, 0}
#define BEHIND(text, filler, times) {text, sizeof text - 1, filler, 0, times}

static const struct fault faults[] = {
    /* The rate's ends: 1 to 99999 are of the form, and of these one that is
       not listed gives 10. */
    LINE("0,N,8,1"), /* below 1 */
    LINE("00,N,8,1"), /* the same with a leading zero */
    LINE("1,N,8,1"), /* the least: 10 */
    LINE("99999,N,8,1"), /* the largest: 10 */
    LINE("100000,N,8,1"), /* one more: 11 */
    LINE("99999.5,N,8,1"), /* between the two */
    LINE(",N,8,1"), /* no rate at all */

    /* Leading zeros: what a number parser would pass over. */
    LINE("09600,N,8,1"), /* one zero before a listed rate */
    LINE("0000050,N,8,1"), /* more digits than 99999 has */
    LINE("0134.5,N,8,1"), /* before the one with a point */
    LINE("00000,N,8,1"), /* zeros alone, five digits of them */
    BEFORE('0', 200, "9600,N,8,1"), /* two hundred of them */

    /* 134.5 is one spelling. */
    LINE("134.5,N,8,1"), /* taken at each clock */
    LINE("134.5,S,5,1.5"), /* as long as a line can be */
    LINE("134,N,8,1"), /* cut: of the form, not listed */
    LINE("135,N,8,1"), /* rounded: so too */
    LINE("1345,N,8,1"), /* without its point, and the list's own number */
    LINE("134.50,N,8,1"), /* the same value */
    LINE("134.,N,8,1"), /* a point with nothing behind it */
    LINE("134.4,N,8,1"), /* another tenth */
    LINE("134.55,N,8,1"), /* begins with it */
    LINE("134.5.5,N,8,1"), /* two points */
    LINE("1134.5,N,8,1"), /* ends with it */
    LINE("134,5,N,8,1"), /* a comma for the point */
    LINE("134.5N,8,1"), /* no comma behind it */
    LINE(".5,N,8,1"), /* a point with nothing before it */
    LINE("110.0,N,8,1"), /* a listed rate with a fraction of 0 */
    LINE("9600.5,N,8,1"), /* another rate with a half */
    LINE("150.0,N,5,1.5"), /* two points, each in its place */

    /* Of the form and not listed: 10. */
    LINE("500,N,8,1"), /* tenths taken for baud would be 50 */
    LINE("1100,N,8,1"), /* and this 110 */
    LINE("96000,N,8,1"), /* and this 9600 */
    LINE("960,N,8,1"), /* a digit short */
    LINE("14400,N,8,1"), /* divides the first clock exactly */
    LINE("76800,N,8,1"), /* divides the second clock exactly */
    LINE("64000,N,8,1"), /* divides the third clock exactly */
    LINE("56000,N,8,1"), /* listed "for the first clock only" */
    LINE("56000,E,7,2"), /* the same in another shape */
    LINE("55999,N,8,1"), /* one less */
    LINE("65586,N,8,1"), /* 50 in 16 bits */
    LINE("75136,N,8,1"), /* 9600 in 16 bits */

    /* Beyond five digits: 11, though the low bits or the clock would do. */
    LINE("115200,N,8,1"), /* divides the first clock exactly */
    LINE("4294976896,N,8,1"), /* 9600 in 32 bits */
    LINE("18446744073709561216,N,8,1"), /* 9600 in 64 bits */
    BEFORE('9', 300, ",N,8,1"), /* beyond any type */

    /* Numbers as other readers write them. */
    LINE("-1,N,8,1"), /* all bits set in a type with a sign */
    LINE("-9600,N,8,1"), /* a sign before a listed rate */
    LINE("+9600,N,8,1"), /* the sign that changes nothing */
    LINE("0x50,N,8,1"), /* a prefix of hexadecimal */
    LINE("96e2,N,8,1"), /* an exponent: 9600 */
    LINE("9,600,N,8,1"), /* a comma between thousands */
    LINE("9 600,N,8,1"), /* a blank between them */
    LINE("9600baud,N,8,1"), /* the unit */
    LINE("96OO,N,8,1"), /* the letter O for the digit 0 */
    LINE("960A,N,8,1"), /* a digit of hexadecimal */
    LINE("9600:,N,8,1"), /* the character behind 9 */
    LINE("/9600,N,8,1"), /* the character before 0 */
    LINE("\xEF\xBC\x99" "600,N,8,1"), /* a wide 9 in UTF-8 */
    LINE("\xB9" "600,N,8,1"), /* 9 with the top bit set */

    /* Parity: one capital of five. */
    LINE("9600,n,8,1"), /* small */
    LINE("9600,e,7,2"), /* the ticket's example, small */
    LINE("9600,,8,1"), /* none */
    LINE("9600,NN,8,1"), /* two */
    LINE("9600,NONE,8,1"), /* a word that begins with one */
    LINE("9600,A,8,1"), /* the first letter, not of the five */
    LINE("9600,F,8,1"), /* the letter behind E */
    LINE("9600,0,8,1"), /* the digit 0 for the letter O */
    LINE("9600,3,8,1"), /* its LCR bits as a number */
    LINE("9600,\xCE,8,1"), /* N with the top bit set */

    /* Bits: one digit from 5 to 8. */
    LINE("9600,N,4,1"), /* one below */
    LINE("9600,N,9,1"), /* one above */
    LINE("9600,N,0,1"), /* the LCR bits of 5 */
    LINE("9600,N,3,1"), /* the LCR bits of 8 */
    LINE("9600,N,,1"), /* none */
    LINE("9600,N,08,1"), /* a leading zero */
    LINE("9600,N,88,1"), /* two digits, each in range */
    LINE("9600,N,8.0,1"), /* a fraction of 0 */
    LINE("9600,N,264,1"), /* 8 in 8 bits */
    LINE("9600,N,\xB8,1"), /* 8 with the top bit set */

    /* Stop: 1 or 2, and for five bits 1 or 1.5. */
    LINE("9600,N,5,1"), /* taken */
    LINE("9600,N,5,1.5"), /* taken */
    LINE("9600,N,5,2"), /* the chip has no such setting */
    LINE("9600,N,6,1.5"), /* five bits alone take it */
    LINE("9600,N,7,1.5"), /* so too */
    LINE("9600,N,8,1.5"), /* so too */
    LINE("9600,N,6,2"), /* taken */
    LINE("9600,N,8,0"), /* LCR bit 2 clear, as a number */
    LINE("9600,N,8,3"), /* one above */
    LINE("9600,N,8,11"), /* a digit behind 1 */
    LINE("9600,N,8,12"), /* both */
    LINE("9600,N,8,21"), /* a digit behind 2 */
    LINE("9600,N,8,01"), /* a leading zero */
    LINE("9600,N,8,1.0"), /* a fraction of 0 */
    LINE("9600,N,8,2.0"), /* so too */
    LINE("9600,N,5,1.50"), /* the same value as 1.5 */
    LINE("9600,N,5,1."), /* a point with nothing behind it */
    LINE("9600,N,5,.5"), /* a point with nothing before it */
    LINE("9600,N,5,15"), /* 1.5 without its point */
    LINE("9600,N,5,1,5"), /* a comma for the point */
    LINE("9600,N,5,2.5"), /* another half */

    /* Parts too few, too many, or otherwise parted. */
    LINE(""), /* an empty line is a line */
    LINE(","), /* two empty parts */
    LINE(",,"), /* three */
    LINE(",,,"), /* four, as many as there should be */
    LINE(",,,,"), /* five */
    LINE("9600"), /* a rate alone */
    LINE("9600,"), /* its comma too */
    LINE("9600,N"), /* no bits */
    LINE("9600,N,"), /* empty bits */
    LINE("9600,N,8"), /* no stop */
    LINE("9600,N,8,"), /* an empty stop */
    LINE("9600,N,8,1,"), /* an empty fifth part */
    LINE("9600,N,8,1,1"), /* a fifth part */
    LINE(",9600,N,8,1"), /* an empty part first */
    LINE("9600,,N,8,1"), /* an empty part between */
    LINE("9600N81"), /* no comma */
    LINE("9600,8N1"), /* as other software has it */
    LINE("9600,N81"), /* one comma */
    LINE("9600;N;8;1"), /* another character for the commas */
    LINE("9600.N.8.1"), /* the point for the commas */
    LINE("9600 N 8 1"), /* the blank for the commas */
    LINE("9600,8,N,1"), /* another order */
    LINE("N,9600,8,1"), /* and another */
    LINE("9600,N,8,1;9600,N,8,1"), /* two lines in one */
    LINE("9600,N,8,1#"), /* a comment */
    LINE("`9600,E,7,2`"), /* as the ticket prints it */

    /* White space, which many readers pass over. */
    LINE(" "), /* a blank alone */
    LINE(" 9600,N,8,1"), /* before the line */
    LINE("9600,N,8,1 "), /* behind it */
    LINE("9600, N, 8, 1"), /* behind the commas */
    LINE("9600 ,N,8,1"), /* before one */
    LINE("\t9600,N,8,1"), /* a tab before */
    LINE("9600,N,8,1\t"), /* a tab behind */
    LINE("9600,N,8,1\v"), /* a vertical tab */
    LINE("9600,N,8,1\f"), /* a form feed */
    LINE("\r"), /* an empty line of another system */
    LINE("9600,N,8,1\r"), /* a line of another system */
    LINE("\r9600,N,8,1"), /* before a line */
    LINE("134.5,S,5,1.5\r"), /* behind the longest line */
    LINE("9600,N,8,1\xC2\x85"), /* a line end of Unicode, in UTF-8 */
    LINE("9600,N,8,1\xE2\x80\xA8"), /* and another */

    /* Bytes that a string of C or a file of C ends at. */
    LINE("\0"), /* an empty string of C */
    LINE("9600,N,8,1\0"), /* a line that is a string of C */
    LINE("9600,N,8,1\0,E,7,2"), /* so is its beginning */
    LINE("\0" "9600,N,8,1"), /* before a line */
    LINE("9600\0,N,8,1"), /* within one */
    LINE("\xFF"), /* -1, the end of a file, where a character has a sign */
    LINE("\xFF" "9600,N,8,1"), /* before a line */
    LINE("9600,N,8,1\xFF"), /* behind one */
    LINE("9600,N,8,1\x1A"), /* the end of a text file on old systems */
    LINE("\xEF\xBB\xBF" "9600,N,8,1"), /* a byte order mark */

    /* Long lines, whose beginning or end would do. */
    LINE("134.5,S,5,1.50"), /* one more than the longest */
    BEHIND("9600,N,8,1", ' ', 90), /* a line of 100 as old files have it */
    BEHIND("9600,N,8,1", '1', 256), /* 10 characters by a count of 8 bits */
    BEHIND("9600,N,8,1", '\0', 256), /* the same, and a string of 10 */
    BEFORE(' ', 200, "9600,N,8,1"), /* its last characters are a line */
    BEHIND("9600,N,8,1", '1', 65536), /* 10 characters by a count of 16 bits */
};

static void take_fault(const struct fault *fault, struct taker taker)
{
    char line[LONGEST];
    memset(line, fault->filler, fault->before);
    memcpy(line + fault->before, fault->text, fault->length);
    memset(line + fault->before + fault->length, fault->filler, fault->behind);
    taker.take(taker.with, line, fault->before + fault->length + fault->behind);
}

void sheet_faults(struct taker taker)
{
    for (size_t i = 0; i < sizeof faults / sizeof faults[0]; i += 1)
        take_fault(&faults[i], taker);
}
