/* memory.c: what memory.h declares. */
#include "memory.h"

#include <stdint.h>
#include <stdlib.h>
#include <string.h>

#include "report.h"

enum { HEAD = 16, TAIL = 16, TAIL_BYTE = 0xc5, FRESH_BYTE = 0xa7 };

static long held, left = -1;
static bool was_refused, is_quiet;

static bool is_refused(void)
{
    if (is_quiet || left < 0)
        return false;
    if (left-- > 0)
        return false;
    return was_refused = true;
}

/* The size of a block stands before it, and bytes that nobody may change behind it. */
static void *furnish(uint8_t *base, size_t size)
{
    memcpy(base, &size, sizeof size);
    memset(base + HEAD + size, TAIL_BYTE, TAIL);
    return base + HEAD;
}

static size_t size_of(const uint8_t *block)
{
    size_t size;
    memcpy(&size, block - HEAD, sizeof size);
    for (size_t i = 0; i < TAIL; i++)
        check(block[size + i] == TAIL_BYTE, "the library wrote past the end of a block of its own");
    return size;
}

void *library_malloc(size_t size)
{
    uint8_t *base = is_refused() ? NULL : malloc(HEAD + size + TAIL);
    if (base == NULL)
        return NULL;
    held++;
    memset(base + HEAD, FRESH_BYTE, size);
    return furnish(base, size);
}

void *library_realloc(void *block, size_t size)
{
    if (block == NULL)
        return library_malloc(size);
    const size_t before = size_of(block);
    if (is_refused())
        return NULL;
    uint8_t *base = realloc((uint8_t *)block - HEAD, HEAD + size + TAIL);
    if (base == NULL)
        return NULL;
    if (size > before)
        memset(base + HEAD + before, FRESH_BYTE, size - before);
    return furnish(base, size);
}

void library_free(void *block)
{
    if (block == NULL)
        return;
    size_of(block);
    held--;
    free((uint8_t *)block - HEAD);
}

long memory_held(void)
{
    return held;
}

void memory_refuse(long next)
{
    left = next;
}

bool memory_was_refused(void)
{
    const bool was = was_refused;
    was_refused = false;
    return was;
}

void memory_hold(void)
{
    is_quiet = true;
}

void memory_go_on(void)
{
    is_quiet = false;
}
