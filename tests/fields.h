#ifndef FIELDS_H
#define FIELDS_H

#include "bench.h"
#include "hailstoat.h"

/* NULL if every field of the lent bench, by the header's names, is what the
   second program's bench has there; else the name of the part that differs. */
const char *fields_differ(const struct hailstoat_bench *lent, const struct bench *second);

/* 1 if two benches have the same bytes wherever a field is; the two bytes at the
   end of each seat have no value. */
int same_fields(const struct hailstoat_bench *one, const struct hailstoat_bench *other);

#endif
