/* Memory that can be refused, for programs and shared libraries that are linked with --wrap for malloc, calloc and realloc. */
#include <stddef.h>

/* How many requests are granted before one is refused, or -1. */
long granted_before_refusal = -1;

void *__real_malloc(size_t);
void *__real_calloc(size_t, size_t);
void *__real_realloc(void *, size_t);

static int refuses(void) { return granted_before_refusal >= 0 && granted_before_refusal-- == 0; }

void *__wrap_malloc(size_t size) { return refuses() ? NULL : __real_malloc(size); }
void *__wrap_calloc(size_t count, size_t size) { return refuses() ? NULL : __real_calloc(count, size); }
void *__wrap_realloc(void *at, size_t size) { return refuses() ? NULL : __real_realloc(at, size); }
