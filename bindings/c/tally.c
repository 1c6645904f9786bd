/* tally.c: what tally.h declares. It is built with turn_client.c, which says how. */
#define _GNU_SOURCE
#include "tally.h"

#include <stdio.h>
#include <stdlib.h>
#include <time.h>

enum { NUMBER = 4 }; /* bytes of the number at the front of a payload */

uint64_t clock_now(void)
{
    struct timespec now;
    clock_gettime(CLOCK_MONOTONIC, &now);
    return (uint64_t)now.tv_sec * SECOND + (uint64_t)now.tv_nsec;
}

bool tally_open(struct tally *tally, uint32_t count, uint32_t size)
{
    *tally = (struct tally){.count = count, .size = size};
    tally->sent_at = calloc((size_t)count + 1, sizeof *tally->sent_at);
    tally->trips = calloc((size_t)count + 1, sizeof *tally->trips);
    return tally->sent_at != NULL && tally->trips != NULL;
}

void tally_close(struct tally *tally)
{
    free(tally->sent_at);
    free(tally->trips);
}

static uint8_t byte_at(uint32_t number, size_t place)
{
    return (uint8_t)(place < NUMBER ? number >> (24 - 8 * place) : number + 31 * place);
}

void tally_next(const struct tally *tally, uint8_t *payload)
{
    for (size_t i = 0; i < tally->size; i++)
        payload[i] = byte_at(tally->sent, i);
}

void tally_goes(struct tally *tally, uint64_t now)
{
    tally->sent_at[tally->sent++] = tally->last = now;
}

int64_t tally_comes(struct tally *tally, const uint8_t *bytes, size_t size, uint64_t now)
{
    uint32_t number = 0;
    if (size != tally->size)
        return -1;
    for (size_t i = 0; i < NUMBER; i++)
        number = number << 8 | bytes[i];
    if (number >= tally->sent || tally->sent_at[number] == 0)
        return -1;
    for (size_t i = NUMBER; i < size; i++) {
        if (bytes[i] != byte_at(number, i))
            return -1;
    }
    tally->trips[tally->back++] = now - tally->sent_at[number];
    tally->sent_at[number] = 0;
    return number;
}

static double in_milliseconds(uint64_t nanoseconds)
{
    return (double)nanoseconds / (double)MILLISECOND;
}

double tally_last_trip(const struct tally *tally)
{
    return in_milliseconds(tally->trips[tally->back - 1]);
}

static int compare(const void *one, const void *other)
{
    const uint64_t *a = one, *b = other;
    return (*a > *b) - (*a < *b);
}

void tally_print(struct tally *tally)
{
    const uint64_t *trips = tally->trips;
    printf("%u of %u payloads came back\n", tally->back, tally->count);
    if (tally->back == 0)
        return;
    qsort(tally->trips, tally->back, sizeof *tally->trips, compare);
    printf("round trip: least %.3f ms, median %.3f ms, greatest %.3f ms\n", in_milliseconds(trips[0]),
           in_milliseconds(trips[tally->back / 2]), in_milliseconds(trips[tally->back - 1]));
}
