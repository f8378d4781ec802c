#ifndef LAYOUT_H
#define LAYOUT_H

/* The size, alignment and places that the header's comments give, and that the
   bytes that are no field's mean nothing to the library. */
void layout(void);

#endif
