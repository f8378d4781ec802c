#ifndef TIMELINE_H
#define TIMELINE_H

#include "bench.h"
#include "source.h"

/* docs/TELLING.md, `--vcd FILE`: "A value change dump (IEEE 1364): time N is the
   bench behind N records", on standard output. */
void timeline_run(struct bench bench, struct source *source);

#endif
