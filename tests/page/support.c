/* Tests of page/module/: its allocator and its arithmetic, compiled for this machine. tools/running/page_test has the names of WebAssembly, of the
 * C library and of compiler-rt lead here, so that the results can be compared with those of the processor. */
#include <stdint.h>
#include <stdio.h>
#include <stdlib.h>
#include <string.h>

typedef unsigned __int128 wide;
typedef struct tried {
    uint64_t ok;
    void *at;
} tried;

/* What is tested. */
void *take(uint64_t bytes);
void give_back(void *at);
void set_most(uint64_t bytes);
uint64_t blocks_in_use(void);
tried rattle_alloc(uint64_t size, uint64_t alignment);
tried rattle_realloc(void *at, uint64_t kept, uint64_t size, uint64_t alignment);
void rattle_dealloc(void *at);
int module_memcmp(const void *left, const void *right, size_t length);
__int128 module_multi3(__int128 left, __int128 right);
__int128 module_ashlti3(__int128 number, int places);
__int128 module_lshrti3(__int128 number, int places);

/* The memory of a module, of which the heap begins in the first page. */
enum { PAGE = 65536, PAGES = 512, BLOCKS = 400, STEPS = 200000 };
char module_heap[PAGE * PAGES] __attribute__((aligned(PAGE)));
static uint64_t pages = 2;

uint64_t module_size(int memory);
uint64_t module_grow(int memory, uint64_t more);

uint64_t module_size(int memory) { return memory + (uint64_t)module_heap / PAGE + pages; }

uint64_t module_grow(int memory, uint64_t more) {
    if (memory != 0 || pages + more > PAGES) {
        return UINT64_MAX;
    }
    pages += more;
    return pages - more;
}

static int passed, failed;

#define CHECK(is_right) \
    do { \
        if (is_right) { \
            passed++; \
        } else { \
            failed++; \
            printf("support.c:%d: %s\n", __LINE__, #is_right); \
        } \
    } while (0)

static uint64_t state = 46;

/* A number at random (xorshift). */
static uint64_t chance(void) {
    state ^= state << 13;
    state ^= state >> 7;
    state ^= state << 17;
    return state;
}

/* A number with few or many digits, or all ones at an end, as faults like them. */
static wide number(void) {
    wide all = (wide)chance() << 64 | chance();
    unsigned places = (unsigned)(chance() % 128);
    return chance() % 4 ? all >> places : ~(wide)0 << places;
}

static void test_arithmetic(void) {
    int wrong = 0;
    for (int step = 0; step < STEPS; step++) {
        wide left = number(), right = number();
        int places = (int)(chance() % 128);
        wrong += (wide)module_multi3((__int128)left, (__int128)right) != left * right;
        wrong += (wide)module_ashlti3((__int128)left, places) != left << places;
        wrong += (wide)module_lshrti3((__int128)left, places) != left >> places;
    }
    CHECK(wrong == 0);
    const char *texts[] = {"", "a", "ab", "abc", "abd", "b", "\xff", "a\xff"};
    for (int first = 0; first < 8; first++) {
        for (int second = 0; second < 8; second++) {
            int ours = module_memcmp(texts[first], texts[second], 2), theirs = memcmp(texts[first], texts[second], 2);
            CHECK((ours > 0) == (theirs > 0) && (ours < 0) == (theirs < 0));
        }
    }
}

typedef struct block {
    unsigned char *at;
    uint64_t size;
    unsigned char filled;
} block;

static block blocks[BLOCKS];

static int is_whole(const block *it) {
    for (uint64_t at = 0; at < it->size; at++) {
        if (it->at[at] != it->filled) {
            return 0;
        }
    }
    return 1;
}

/* A size: often small, at times of several pages. */
static uint64_t size(void) { return chance() % (chance() % 16 ? 300 : 200000); }

/* Makes a block, or gives it another size, or frees it. Whether all was right. */
static int step(block *it) {
    if (!it->at) {
        uint64_t wanted = size();
        tried made = rattle_alloc(wanted, 8);
        *it = (block){made.ok ? made.at : NULL, made.ok ? wanted : 0, (unsigned char)chance()};
        memset(made.at, it->filled, it->size);
        return (uint64_t)made.at % 16 == 0 || !made.ok;
    }
    int was_whole = is_whole(it);
    if (chance() % 2) {
        rattle_dealloc(it->at);
        *it = (block){NULL, 0, 0};
        return was_whole;
    }
    uint64_t wanted = size(), kept = wanted < it->size ? wanted : it->size;
    tried made = rattle_realloc(it->at, kept, wanted, 8);
    if (made.ok) {
        it->at = made.at;
        it->size = kept;
        was_whole = was_whole && is_whole(it) && (uint64_t)made.at % 16 == 0;
        it->size = wanted;
        memset(it->at, it->filled, it->size);
    }
    return was_whole;
}

static void test_heap(void) {
    int wrong = 0;
    for (int count = 0; count < STEPS; count++) {
        wrong += !step(&blocks[chance() % BLOCKS]);
    }
    uint64_t used = 0;
    for (int at = 0; at < BLOCKS; at++) {
        used += blocks[at].at != NULL;
        wrong += blocks[at].at != NULL && !is_whole(&blocks[at]);
    }
    CHECK(wrong == 0);
    CHECK(used > BLOCKS / 4 && blocks_in_use() == used);
    for (int at = 0; at < BLOCKS; at++) {
        if (blocks[at].at) {
            rattle_dealloc(blocks[at].at);
        }
    }
    CHECK(blocks_in_use() == 0);
    char *first = take(1), *second = take(1);
    CHECK(first >= module_heap && first < module_heap + 64 && second == first + 32);
    give_back(first);
    first = take(1);
    CHECK(first == second - 32 && take(1) == second + 32);
    CHECK(take(UINT64_MAX) == NULL && take((uint64_t)PAGE * PAGES) == NULL && blocks_in_use() == 3);
    uint64_t before = pages;
    set_most((uint64_t)module_heap + pages * PAGE);
    while (take(PAGE)) {
    }
    CHECK(pages == before);
    tried none = rattle_alloc(PAGE, 8), same = rattle_realloc(first, 1, PAGE, 8);
    CHECK(!none.ok && !same.ok && none.at && same.at);
}

int main(void) {
    test_arithmetic();
    test_heap();
    printf("%d passed, %d failed\n", passed, failed);
    return failed != 0;
}
