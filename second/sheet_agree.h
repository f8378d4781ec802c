#ifndef SHEET_AGREE_H
#define SHEET_AGREE_H

/* Whether reading and writing agree: what is written from the numbers of
   sheet_numbers reads as these numbers, and each of sheet_lines that is read is
   written again as it was. What disagrees is told on standard error; not 0
   then. */
int sheet_agree_run(void);

#endif
