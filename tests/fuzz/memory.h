/* memory.h: the allocator that the library is given here. It counts blocks, sees writes past a block's end, and refuses
 * where it is told to. `run` renames malloc, realloc and free in a copy of the archive to the three functions below, so
 * that nothing else of the program is counted or refused. */
#ifndef MEMORY_H
#define MEMORY_H

#include <stdbool.h>
#include <stddef.h>

void *library_malloc(size_t size);
void *library_realloc(void *block, size_t size);
void library_free(void *block);

/* How many blocks are held. */
long memory_held(void);

/* Of the next `left` allocations each is made, and the one behind them is refused; below zero none is. */
void memory_refuse(long left);

/* Whether one was refused since it was asked last. */
bool memory_was_refused(void);

/* No refusals between these two; what is to be refused later stays. */
void memory_hold(void);
void memory_go_on(void);

#endif
