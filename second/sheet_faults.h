#ifndef SHEET_FAULTS_H
#define SHEET_FAULTS_H

#include "taker.h"

/* Lines that a wrong reader would take, or refuse by another number. */
void sheet_faults(struct taker taker);

#endif
