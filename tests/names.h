#ifndef NAMES_H
#define NAMES_H

/* That the header's names mean what they say; fails at the first that does not. */
void names_mean(void);

#endif
