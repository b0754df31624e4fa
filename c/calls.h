/* calls.h: what the C files of the library share: the memory of heap.c, handles, and publications. It is not for programs. */
#ifndef CEDAR_CALLS_H
#define CEDAR_CALLS_H
#include "cedar.h"

#include <stdbool.h>

/* Memory, as heap.c describes it. */
typedef struct cedar_tried {
    bool ok;
    void *at;
} cedar_tried;
cedar_tried rattle_alloc(size_t size, size_t alignment);
void rattle_dealloc(void *at);

/* The handle of the proved part that has a mark, which is what a cedar_engine of cedar_new has; null where the handle was freed. */
cedar_engine *cedar_marked(uintptr_t mark);

/* The handle of the proved part to which a cedar_engine leads; null where it leads nowhere, or is a copy of one that was freed. */
static inline cedar_engine *cedar_handle_of(cedar_engine *engine) {
    uintptr_t mark = engine ? (uintptr_t)engine->at : 0;
    return mark & 1 ? cedar_marked(mark) : mark ? engine : NULL;
}

/* Makes a handle, to which an engine then leads. */
uint32_t cedar_handle_new(cedar_engine *engine);

/* Frees the handle to which an engine leads. Where it leads to none, nothing happens. */
void cedar_handle_free(cedar_engine *engine);

/* What is published to a handle: files, entities, or changes of entities. `files` has the schema, by which a refusal is put in words, and
 * what is published but changes; and the settings with which the schema was read. */
typedef struct cedar_publication {
    enum { CEDAR_ALL_FILES, CEDAR_NEW_ENTITIES, CEDAR_SOME_CHANGES } kind;
    cedar_files files;
    cedar_bytes changes;
} cedar_publication;

/* Whether bytes have an address, or no length. */
static inline bool cedar_are_bytes(cedar_bytes bytes) { return bytes.at || bytes.length == 0; }

/* Whether a buffer is null, or has an address, or no room. */
static inline bool cedar_is_room(const cedar_buffer *text) { return !text || text->at || text->room == 0; }

/* Whether files have a size that is known, and addresses. */
bool cedar_are_files(const cedar_files *files);

/* Whether a refusal is null, or has a size and wants that are known. */
bool cedar_is_refusal(const cedar_refusal *refusal);

/* Says which file a call that validates has refused with this status, and why. Gives the status, or that of saying so. */
uint32_t cedar_say_which(uint32_t status, const cedar_files *files, cedar_refusal *refusal);

/* Publishes to a handle, and says why what is published is refused. The arguments are right. */
uint32_t cedar_publish_this(cedar_engine *engine, const cedar_publication *publication, cedar_refusal *refusal, cedar_buffer *text);
#endif
