/* buffers.c: bytes and datagrams that wait. */
#define _GNU_SOURCE
#include "internal.h"

#include <stdlib.h>
#include <string.h>

/* ---- bytes of a stream */

/* The room is twice the most that may wait: so what waits is moved to the front at most once for as
 * many bytes as were taken before. */
bool buffer_open(struct buffer *buffer, size_t most)
{
    *buffer = (struct buffer){.bytes = malloc(2 * most), .room = 2 * most};
    return buffer->bytes != NULL;
}

void buffer_close(struct buffer *buffer)
{
    free(buffer->bytes);
    *buffer = (struct buffer){.bytes = NULL};
}

size_t buffer_size(const struct buffer *buffer)
{
    return buffer->end - buffer->start;
}

void buffer_add(struct buffer *buffer, const uint8_t *bytes, size_t size)
{
    if (size > buffer->room - buffer->end) {
        const size_t waits = buffer_size(buffer);
        memmove(buffer->bytes, buffer->bytes + buffer->start, waits);
        buffer->start = 0;
        buffer->end = waits;
    }
    memcpy(buffer->bytes + buffer->end, bytes, size);
    buffer->end += size;
}

/* ---- datagrams */

bool queue_has_room(const struct queue *queue, size_t size)
{
    return queue->count < queue->count_max && size <= queue->bytes_max - queue->bytes;
}

void queue_put(struct queue *queue, struct datagram *added)
{
    added->next = NULL;
    if (queue->last == NULL)
        queue->first = added;
    else
        queue->last->next = added;
    queue->last = added;
    queue->count++;
    queue->bytes += added->size;
}

bool queue_add(struct queue *queue, const turn_address *peer, const void *bytes, size_t size)
{
    struct datagram *added = malloc(sizeof *added + size);
    if (added == NULL)
        return false;
    added->peer = *peer;
    added->size = size;
    if (size > 0)
        memcpy(added->bytes, bytes, size);
    queue_put(queue, added);
    return true;
}

struct datagram *queue_take(struct queue *queue)
{
    struct datagram *first = queue->first;
    queue->first = first->next;
    if (queue->first == NULL)
        queue->last = NULL;
    queue->count--;
    queue->bytes -= first->size;
    return first;
}

void queue_clear(struct queue *queue)
{
    while (queue->first != NULL)
        free(queue_take(queue));
}
