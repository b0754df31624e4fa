/* handles.c: what a cedar_engine has in place of an address, so that a copy of one that was freed is known to be such a copy.
 *
 * A handle of cedar_new is in a cell. Its cedar_engine has the number of the cell and that of a turn: a cell is used again by later handles,
 * each with the next turn. Cells stay where they are, and are never given back. cedar_raw_new gives an address, whose last bit is 0: such a
 * handle is taken as it is. */
#include "calls.h"

#include <pthread.h>
#include <stdatomic.h>

/* The cells of a block, and the blocks: the number of a cell has 24 bits. */
#define CELLS 1024
#define BLOCKS 16384

/* A cell that has come to this turn is not used again. */
#define LAST UINT32_MAX

typedef struct cell {
    cedar_engine raw; /* of the proved part */
    _Atomic(uint32_t) turn;
    uint32_t next; /* the number of the next free cell, or NONE */
} cell;

#define NONE UINT32_MAX

static cell first[CELLS];
static _Atomic(cell *) blocks[BLOCKS] = {first};
static pthread_mutex_t lock = PTHREAD_MUTEX_INITIALIZER; /* of what follows, and of cells that are free */
static uint32_t count, unused = NONE;

static cell *cell_of(uint32_t number) {
    cell *block = atomic_load_explicit(&blocks[number / CELLS], memory_order_acquire);
    return block ? &block[number % CELLS] : NULL;
}

/* What a cedar_engine has: the turn, the number of the cell, and a last bit that no address has. */
static void *mark_of(uint32_t turn, uint32_t number) { return (void *)((uintptr_t)turn << 32 | (uintptr_t)number << 1 | 1); }

static uint32_t number_of(uintptr_t mark) { return (uint32_t)(mark >> 1) % (CELLS * BLOCKS); }

/* The number of a cell that was never used. Without memory it is NONE. The lock is held. */
static uint32_t next_cell(void) {
    uint32_t number = count;
    if (number == CELLS * BLOCKS) {
        return NONE;
    }
    if (!cell_of(number)) {
        cedar_tried tried = rattle_alloc(CELLS * sizeof(cell), 16);
        if (!tried.ok) {
            return NONE;
        }
        for (cell *it = tried.at, *end = it + CELLS; it < end; it++) {
            atomic_init(&it->turn, 0);
        }
        atomic_store_explicit(&blocks[number / CELLS], tried.at, memory_order_release);
    }
    count++;
    return number;
}

cedar_engine *cedar_marked(uintptr_t mark) {
    cell *it = cell_of(number_of(mark));
    return it && atomic_load_explicit(&it->turn, memory_order_relaxed) == mark >> 32 ? &it->raw : NULL;
}

uint32_t cedar_handle_new(cedar_engine *engine) {
    cedar_engine raw = {NULL};
    uint32_t status = cedar_raw_new(&raw.at);
    if (status != CEDAR_OK) {
        return status;
    }
    pthread_mutex_lock(&lock);
    uint32_t number = unused != NONE ? unused : next_cell();
    if (number != NONE) {
        cell *it = cell_of(number);
        unused = number == unused ? it->next : unused;
        it->raw = raw;
        engine->at = mark_of(atomic_load_explicit(&it->turn, memory_order_relaxed), number);
    }
    pthread_mutex_unlock(&lock);
    if (number == NONE) {
        cedar_raw_free(raw);
        return CEDAR_MEMORY;
    }
    return CEDAR_OK;
}

/* Takes a handle out of its cell. It is null where the mark is that of an earlier turn, also if two threads free copies at once. */
static cedar_engine taken(uintptr_t mark) {
    uint32_t number = number_of(mark);
    cell *it = cell_of(number);
    cedar_engine raw = {NULL};
    pthread_mutex_lock(&lock);
    uint32_t turn = it ? atomic_load_explicit(&it->turn, memory_order_relaxed) : 0;
    if (it && turn == mark >> 32) {
        raw = it->raw;
        atomic_store_explicit(&it->turn, turn + 1, memory_order_relaxed);
        if (turn + 1 < LAST) {
            it->next = unused;
            unused = number;
        }
    }
    pthread_mutex_unlock(&lock);
    return raw;
}

void cedar_handle_free(cedar_engine *engine) {
    uintptr_t mark = (uintptr_t)engine->at;
    cedar_engine raw = mark & 1 ? taken(mark) : *engine;
    if (raw.at) {
        cedar_raw_free(raw);
    }
}
