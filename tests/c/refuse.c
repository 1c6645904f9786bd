/* refuse.c: refuses the library one of its allocations, and counts the blocks that it holds (refuse.h). It is linked
 * by -Wl,--wrap=malloc,--wrap=realloc,--wrap=free: into refused.c, and by tests/memory/refused_client.py into a
 * shared library. */
#include "refuse.h"

#include <stddef.h>

long refuse_left = -1, refuse_held;

void *__real_malloc(size_t size);
void *__real_realloc(void *block, size_t size);
void __real_free(void *block);
void *__wrap_malloc(size_t size);
void *__wrap_realloc(void *block, size_t size);
void __wrap_free(void *block);

void *__wrap_malloc(size_t size)
{
    void *block = refuse_left-- == 0 ? NULL : __real_malloc(size);
    refuse_held += block != NULL;
    return block;
}

void *__wrap_realloc(void *block, size_t size)
{
    void *moved = refuse_left-- == 0 ? NULL : __real_realloc(block, size);
    refuse_held += moved != NULL && block == NULL;
    return moved;
}

void __wrap_free(void *block)
{
    refuse_held -= block != NULL;
    __real_free(block);
}
