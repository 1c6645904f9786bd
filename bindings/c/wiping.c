/* wiping.c: the allocator inside the archive, which overwrites each block before the program's free gets it.
 *
 * `build` and `try` compile it, and send each malloc, realloc and free of the library here; nothing else of a program
 * comes here. So the keys, passwords, names and messages that the library frees are gone from the program's memory.
 * What the library moved through registers and the stack, and pages that the kernel swapped or dumped, stay.
 *
 * A block stands behind a header of 16 bytes, which has its size: free isn't told it. Alignment is that of malloc. */
#include <stddef.h>
#include <stdint.h>
#include <stdlib.h>
#include <string.h>

struct header {
    _Alignas(max_align_t) size_t size; /* bytes of the block behind it */
};

void *wiping_malloc(size_t size);
void *wiping_realloc(void *block, size_t size);
void wiping_free(void *block);

/* A block of so many bytes, also of none; NULL where the program's malloc refuses it, or the sum would wrap. */
void *wiping_malloc(size_t size)
{
    if (size > SIZE_MAX - sizeof(struct header))
        return NULL;
    struct header *header = malloc(sizeof *header + size);
    if (header == NULL)
        return NULL;
    header->size = size;
    return header + 1;
}

/* Overwrites and frees a block with its header; NULL is no block. A compiler may drop a memset of memory that nobody
 * reads before it is freed. It may not here: an asm statement that is given the address and clobbers memory counts as
 * a reader of all bytes there. (Stores to volatile would do the same a byte at a time.) */
void wiping_free(void *block)
{
    if (block == NULL)
        return;
    struct header *header = (struct header *)block - 1;
    memset(header, 0, sizeof *header + header->size);
    __asm__ volatile("" : : "r"(header) : "memory");
    free(header);
}

/* A block of another size with the same bytes as far as both reach; the old one is overwritten and freed. NULL where
 * there is no memory: the old one then stays. The program's realloc could leave a copy behind, so it is not called. */
void *wiping_realloc(void *block, size_t size)
{
    void *moved = wiping_malloc(size);
    if (moved == NULL || block == NULL)
        return moved;
    const size_t before = ((struct header *)block - 1)->size;
    memcpy(moved, block, before < size ? before : size);
    wiping_free(block);
    return moved;
}
