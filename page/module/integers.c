/* integers.c: what clang calls for work that WebAssembly has no instruction for. The names and the results are those of the C library and
 * of compiler-rt. */
#include "types.h"

typedef unsigned __int128 wide;

int memcmp(const void *left, const void *right, size_t length);
int bcmp(const void *left, const void *right, size_t length);
__int128 __multi3(__int128 left, __int128 right);
__int128 __ashlti3(__int128 number, int places);
__int128 __lshrti3(__int128 number, int places);

/* The order of two runs of bytes: the difference of the first bytes that differ, or 0. */
int memcmp(const void *left, const void *right, size_t length) {
    const unsigned char *first = left, *second = right;
    for (; length; length--, first++, second++) {
        if (*first != *second) {
            return *first - *second;
        }
    }
    return 0;
}

int bcmp(const void *left, const void *right, size_t length) { return memcmp(left, right, length); }

static wide joined(uint64_t high, uint64_t low) { return (wide)high << 64 | low; }

/* The product of two numbers of 64 bits, from those of their halves. */
static wide product(uint64_t left, uint64_t right) {
    uint64_t left_low = left & UINT32_MAX, left_high = left >> 32, right_low = right & UINT32_MAX, right_high = right >> 32;
    uint64_t low = left_low * right_low, first = left_low * right_high, second = left_high * right_low;
    uint64_t middle = (low >> 32) + (first & UINT32_MAX) + (second & UINT32_MAX);
    uint64_t high = left_high * right_high + (first >> 32) + (second >> 32) + (middle >> 32);
    return joined(high, middle << 32 | (low & UINT32_MAX));
}

/* The low 128 bits of a product. */
__int128 __multi3(__int128 left, __int128 right) {
    uint64_t left_low = (uint64_t)left, left_high = (uint64_t)((wide)left >> 64);
    uint64_t right_low = (uint64_t)right, right_high = (uint64_t)((wide)right >> 64);
    wide low = product(left_low, right_low);
    return (__int128)joined((uint64_t)(low >> 64) + left_low * right_high + left_high * right_low, (uint64_t)low);
}

/* Shifts by 0 to 127 places. */
__int128 __ashlti3(__int128 number, int places) {
    uint64_t low = (uint64_t)number, high = (uint64_t)((wide)number >> 64);
    if (places == 0) {
        return number;
    }
    if (places >= 64) {
        return (__int128)joined(low << (places - 64), 0);
    }
    return (__int128)joined(high << places | low >> (64 - places), low << places);
}

__int128 __lshrti3(__int128 number, int places) {
    uint64_t low = (uint64_t)number, high = (uint64_t)((wide)number >> 64);
    if (places == 0) {
        return number;
    }
    if (places >= 64) {
        return (__int128)joined(0, high >> (places - 64));
    }
    return (__int128)joined(high >> places, low >> places | high << (64 - places));
}
