package main

// The memory of the engine, which is that of the C library: no other part of the process allocates there more than a little.

/*
#include <malloc.h>
#include <stddef.h>

#if defined(__GLIBC__) && defined(__GLIBC_PREREQ)
#if __GLIBC_PREREQ(2, 33)
#define HAS_COUNT 1
#endif
#endif

// The bytes that malloc has given and that are not freed, or 0 where the C library does not count them.
static size_t allocated(void) {
#ifdef HAS_COUNT
    struct mallinfo2 counts = mallinfo2();
    return counts.uordblks + counts.hblkhd;
#else
    return 0;
#endif
}

// Has malloc keep at most so many arenas. Each keeps memory that was freed, and without a limit there are eight for each processor.
static void limit_arenas(int most) {
#ifdef __GLIBC__
    mallopt(M_ARENA_MAX, most);
#endif
}

// Gives memory that malloc holds and nobody uses back to the system.
static void trim(void) {
#ifdef __GLIBC__
    malloc_trim(0);
#endif
}
*/
import "C"

import (
	"os"
	"runtime"
)

// limitArenas has malloc keep an arena for each processor, unless MALLOC_ARENA_MAX says how many.
func limitArenas() {
	if os.Getenv("MALLOC_ARENA_MAX") == "" {
		C.limit_arenas(C.int(runtime.GOMAXPROCS(0)))
	}
}

// trimEngine gives memory of old versions back to the system. Each arena of malloc is locked meanwhile.
func trimEngine() {
	C.trim()
}

// engineBytes gives the bytes that the engine has allocated, of all versions that requests still use.
func engineBytes() uint64 {
	return uint64(C.allocated())
}
