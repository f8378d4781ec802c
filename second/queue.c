#include "queue.h"

bool queue_is_empty(const struct queue *queue)
{
    return queue->count == 0;
}

void queue_add(struct queue *queue, struct character character)
{
    queue->characters[queue->count] = character;
    queue->count += 1;
}

struct character queue_take_oldest(struct queue *queue)
{
    struct character oldest = queue->characters[0];
    for (unsigned i = 1; i < queue->count; i += 1)
        queue->characters[i - 1] = queue->characters[i];
    queue->count -= 1;
    queue->characters[queue->count] = (struct character){0, 0};
    return oldest;
}

void queue_make_empty(struct queue *queue)
{
    *queue = (struct queue){0};
}

bool queue_has_mark(const struct queue *queue)
{
    for (unsigned i = 0; i < queue->count; i += 1)
        if (queue->characters[i].marks != 0)
            return true;
    return false;
}
