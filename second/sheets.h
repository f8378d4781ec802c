#ifndef SHEETS_H
#define SHEETS_H

#include <stdint.h>

/* Settings lines on standard input; for each a line of refusal, divisor in
   decimal and LCR in two hex capitals: `0 12 1E`, or `11 - -`. */
int sheets_read(uint64_t clock);

/* Lines `CLOCK DIVISOR LCR ROOM` on standard input; for each a line of refusal
   and the settings line: `0 9600,E,7,2`, or `12 -`. A line that is not four
   numbers is told on standard error and has no answer; the result is 1 then. */
int sheets_write(void);

#endif
