#ifndef SETTING_CALLS_H
#define SETTING_CALLS_H

/* Settings lines read and written by the library, each answer and each byte as the
   second program has it. */
void setting_lines(void);

#endif
