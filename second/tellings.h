#ifndef TELLINGS_H
#define TELLINGS_H

/* The commands that tell of a lesson, with the words behind their names. All
   take `--from IMAGE` and a lesson, each or neither; without a lesson the records
   come from standard input. TELLINGS_USAGE where the words are not such. */
#define TELLINGS_USAGE 2
#define TELLINGS_WORDS " [--from IMAGE] [LESSON]"

int tellings_explain(int count, char **words);

/* The first word is `each` or `end`. */
int tellings_show(int count, char **words);
int tellings_explain_show(int count, char **words);

int tellings_timeline(int count, char **words);
int tellings_coverage(int count, char **words);

#endif
