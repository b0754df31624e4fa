// Refuses the request for memory whose number, from 1, the environment variable REFUSE gives, and grants all others. A
// program under it says at its end, by one byte to the file descriptor that REFUSE_TELLS gives, that a request was refused.
#define _GNU_SOURCE
#include <dlfcn.h>
#include <stdlib.h>
#include <unistd.h>

static long left;
static int tells = -1;
static void *(*granted)(size_t);
static void *(*grown)(void *, size_t);

static int is_refused(void) {
    if (left <= 0 || --left > 0) {
        return 0;
    }
    return write(tells, "r", 1) == 1;
}

__attribute__((constructor)) static void begin(void) {
    granted = dlsym(RTLD_NEXT, "malloc");
    grown = dlsym(RTLD_NEXT, "realloc");
    const char *descriptor = getenv("REFUSE_TELLS");
    const char *number = getenv("REFUSE");
    if (descriptor && number) {
        tells = atoi(descriptor);
        left = atol(number);
    }
}

void *malloc(size_t size) {
    if (!granted) {
        granted = dlsym(RTLD_NEXT, "malloc");
    }
    return is_refused() ? NULL : granted(size);
}

void *realloc(void *memory, size_t size) {
    if (!grown) {
        grown = dlsym(RTLD_NEXT, "realloc");
    }
    return is_refused() ? NULL : grown(memory, size);
}
