#ifndef ACCOUNT_H
#define ACCOUNT_H

#include "page.h"
#include "watch.h"

/* docs/TELLING.md, `--explain`: the pieces of a record, by the bench on both
   sides of it. One that is cut off has no event, and REFUSAL_SHORT. */

/* "What was done" */
void account_done(struct page *page, const struct moment *moment);

/* "What came of it" */
void account_came(struct page *page, const struct moment *moment);

/* "What moved" */
void account_moved(struct page *page, const struct moment *moment);

/* "LSR, MSR": the byte and the words of its bits. */
void account_lsr(struct page *page, unsigned lsr);
void account_msr(struct page *page, unsigned msr);
void account_iir(struct page *page, unsigned iir);

/* "`requests B: `, `in service B: ` or `mask B: `, and the lines of the set" */
void account_set(struct page *page, const char *name, unsigned set);

/* The seat that the record names, "for kinds 0 to 4 and a seat up to 7"; SEATS
   where it names none. */
unsigned account_seat(const struct moment *moment);

/* Whether LCR bit 7 of the record's seat was set before it, "of a seat above 7
   as if it were clear". */
bool account_divisor(const struct moment *moment);

#endif
