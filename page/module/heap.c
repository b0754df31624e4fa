/* heap.c: the memory of the engine in a page. It takes the place of c/heap.c, which calls malloc.
 *
 * The memory of the module grows by pages of 64 KiB, up to a limit that the page sets. A block has one of these sizes: 16, 32, .. 128
 * bytes, then four sizes for each power of two. The 16 bytes before it hold the number of its size. A freed block goes to the list of its
 * size. When the last block is freed the heap begins anew, so that calls that keep nothing leave no pieces behind. */
#include "types.h"

#define PAGE 65536u
#define SIZES 224
#define LARGEST ((uint64_t)1 << 40)

extern char __heap_base;

/* What is before the bytes of a block. In a block that is free, `next` is the next free block of its size. */
typedef struct block {
    uint64_t number;
    struct block *next;
} block;

/* The first address that no block has had, the end of the memory, the number of blocks in use, and the most bytes of memory. */
static uint64_t top, end, in_use, most = UINT64_MAX;
static block *freed[SIZES];

/* The number of the least size that has room for so many bytes. */
static unsigned number_of(uint64_t bytes) {
    if (bytes <= 128) {
        return bytes ? (unsigned)((bytes - 1) >> 4) : 0;
    }
    unsigned power = 63 - (unsigned)__builtin_clzll(bytes - 1);
    return 8 + (power - 7) * 4 + (unsigned)(((bytes - 1) >> (power - 2)) & 3);
}

/* The bytes of a size. */
static uint64_t bytes_of(unsigned number) {
    if (number < 8) {
        return 16 * (uint64_t)(number + 1);
    }
    unsigned power = (number - 8) / 4 + 7, quarter = (number - 8) % 4;
    return ((uint64_t)1 << power) + (uint64_t)(quarter + 1) * ((uint64_t)1 << (power - 2));
}

/* Has the memory go on for so many bytes after `top`. Whether it does. */
static int reaches(uint64_t bytes) {
    if (!top) {
        top = ((uint64_t)&__heap_base + 15) & ~(uint64_t)15;
        end = __builtin_wasm_memory_size(0) * PAGE;
    }
    if (bytes <= end - top) {
        return 1;
    }
    uint64_t pages = (bytes - (end - top) + PAGE - 1) / PAGE;
    if (end + pages * PAGE > most || __builtin_wasm_memory_grow(0, pages) == SIZE_MAX) {
        return 0;
    }
    end += pages * PAGE;
    return 1;
}

/* A block with room for so many bytes, or null. Its address is a multiple of 16. */
__attribute__((export_name("take"))) void *take(uint64_t bytes) {
    if (bytes > LARGEST) {
        return NULL;
    }
    unsigned number = number_of(bytes);
    block *found = freed[number];
    if (found) {
        freed[number] = found->next;
    } else {
        uint64_t whole = sizeof(block) + bytes_of(number);
        if (!reaches(whole)) {
            return NULL;
        }
        found = (block *)top;
        found->number = number;
        top += whole;
    }
    in_use++;
    return found + 1;
}

/* Frees a block. */
__attribute__((export_name("give_back"))) void give_back(void *at) {
    block *given = (block *)at - 1;
    given->next = freed[given->number];
    freed[given->number] = given;
    if (--in_use == 0) {
        top = 0;
        for (unsigned number = 0; number < SIZES; number++) {
            freed[number] = NULL;
        }
    }
}

/* Sets the most bytes that the memory may have. What it has already stays. */
__attribute__((export_name("set_most"))) void set_most(uint64_t bytes) { most = bytes; }

/* The number of blocks in use. */
__attribute__((export_name("in_use"))) uint64_t blocks_in_use(void) { return in_use; }

/* The three functions that the proved code calls, as c/heap.c describes them. */
typedef struct tried {
    uint64_t ok;
    void *at;
} tried;

static char nowhere;

static tried found(void *at) {
    tried result = {at != NULL, at != NULL ? at : &nowhere};
    return result;
}

tried rattle_alloc(uint64_t size, uint64_t alignment);
tried rattle_realloc(void *at, uint64_t kept, uint64_t size, uint64_t alignment);
void rattle_dealloc(void *at);

tried rattle_alloc(uint64_t size, uint64_t alignment) { return found(take(size ? size : alignment)); }

tried rattle_realloc(void *at, uint64_t kept, uint64_t size, uint64_t alignment) {
    uint64_t held = bytes_of((unsigned)((block *)at - 1)->number), wanted = size ? size : alignment;
    if (wanted <= held && wanted > held / 4) {
        return found(at);
    }
    void *moved = take(wanted);
    if (moved) {
        __builtin_memcpy(moved, at, kept < wanted ? kept : wanted);
        give_back(at);
    }
    return found(moved);
}

void rattle_dealloc(void *at) { give_back(at); }
