#ifndef WORDS_H
#define WORDS_H

#include <stdbool.h>

#include "outcome.h"

/* The tables of docs/TELLING.md, Words. */

#define REGISTERS 8U
#define LSR_WORDS 8U
#define MSR_WORDS 8U
#define MARK_WORDS 3U
#define LEVEL_WORDS 4U

extern const char *const lsr_words[LSR_WORDS];
extern const char *const msr_words[MSR_WORDS];
extern const char *const mark_words[MARK_WORDS];
extern const char *const level_words[LEVEL_WORDS];

/* The name of a register up to 7: "of a write THR and FCR for RBR and IIR; with
   LCR bit 7 set DLL and DLM for numbers 0 and 1". */
const char *register_name(unsigned number, bool writes, bool divisor);

/* "IIR bits 3 to 0" */
const char *cause_words(unsigned iir);

/* Of the refusals that a record may have. */
const char *refusal_words(enum refusal refusal);

#endif
