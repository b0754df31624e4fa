/* heap.c: the memory of the engine, from malloc, realloc and free.
 *
 * The proved archive calls these three functions for memory, and no others. The proofs assume what is said of each of them.
 *
 * A program that has an allocator of its own may define them in place of this file. All three must use one allocator. A block of
 * `size` bytes must be aligned to each power of two up to 16 that divides `size`, as malloc aligns it. */
#include <stdbool.h>
#include <stddef.h>
#include <stdlib.h>

/* Whether there is memory, and its address. Without memory the address is that of a byte that nobody reads or writes, since the
 * engine has no null addresses. */
typedef struct cedar_tried {
    bool ok;
    void *at;
} cedar_tried;

static char nowhere;

static cedar_tried tried(void *at) {
    cedar_tried found = {at != NULL, at != NULL ? at : &nowhere};
    return found;
}

cedar_tried rattle_alloc(size_t size, size_t alignment);
cedar_tried rattle_realloc(void *at, size_t kept, size_t size, size_t alignment);
void rattle_dealloc(void *at);

/* A new block. `alignment` is a power of two up to 16 that divides `size`. A block of 0 bytes is as large as its alignment, so that it
 * has an address of its own. */
cedar_tried rattle_alloc(size_t size, size_t alignment) { return tried(malloc(size != 0 ? size : alignment)); }

/* A block with another size, which may have moved. Its first `kept` bytes are as they were. Without memory the block is as it was. */
cedar_tried rattle_realloc(void *at, size_t kept, size_t size, size_t alignment) {
    (void)kept;
    return tried(realloc(at, size != 0 ? size : alignment));
}

/* Frees a block that either function gave. */
void rattle_dealloc(void *at) { free(at); }
