#ifndef THREADS_H
#define THREADS_H

/* Two benches in two threads; fails where one is not as it is alone. */
void two_threads(void);

#endif
