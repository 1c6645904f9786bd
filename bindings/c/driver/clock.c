/* clock.c: times in nanoseconds of CLOCK_MONOTONIC. */
#define _GNU_SOURCE
#include "internal.h"

#include <limits.h>
#include <time.h>

uint64_t clock_now(void)
{
    struct timespec now;
    clock_gettime(CLOCK_MONOTONIC, &now);
    return (uint64_t)now.tv_sec * SECOND + (uint64_t)now.tv_nsec;
}

uint64_t deadline_of(int timeout_ms)
{
    return timeout_ms < 0 ? UINT64_MAX : clock_now() + (uint64_t)timeout_ms * MILLISECOND;
}

int wait_of(uint64_t until)
{
    const uint64_t now = clock_now();
    if (until <= now)
        return 0;
    const uint64_t wait = (until - now - 1) / MILLISECOND + 1;
    return wait > INT_MAX ? INT_MAX : (int)wait;
}

uint64_t sooner(uint64_t one, uint64_t other)
{
    return one < other ? one : other;
}
