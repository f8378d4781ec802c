#ifndef QUEUE_H
#define QUEUE_H

#include <stdbool.h>

/* "16450 mode, queues of 1", "FIFO mode, queues of 16". */
#define PLACES_16450 1U
#define PLACES_FIFO 16U

struct character {
    unsigned data;
    unsigned marks; /* "1 parity, 2 framing, 4 break" */
};

/* The oldest character is characters[0]; those from count on are all 0. */
struct queue {
    unsigned count;
    struct character characters[PLACES_FIFO];
};

bool queue_is_empty(const struct queue *queue);

/* The caller has seen that there is room. */
void queue_add(struct queue *queue, struct character character);

/* The caller has seen that the queue is not empty. */
struct character queue_take_oldest(struct queue *queue);

void queue_make_empty(struct queue *queue);

/* "some queued character has a mark" */
bool queue_has_mark(const struct queue *queue);

#endif
