/* shared.c: an engine for any number of threads.
 *
 * A version is what one publication made: a handle that leads to it, and the schema with its settings, by which refusals are put in words. A
 * request takes a handle of the current version out of a place, asks it, and puts it back. The places are of two sides, for even and odd
 * versions: who publishes fills those of the next version, then makes it current, and then frees what is in those of the old one. A handle
 * counts on its version, and the last that counts frees it. So no request follows the address of a version that may be freed.
 *
 * The engine's own counts of references say when trees are freed, but no tool for threads sees them. The counts and the lock here give
 * the same order, and tools see it: each version is freed after the last use of its handles, and versions are freed one after another. */
#include "calls.h"

#include <pthread.h>
#include <stdatomic.h>
#include <string.h>

/* Helgrind of valgrind takes no order from atomics, but from these. */
#ifdef CEDAR_HELGRIND
#include <valgrind/helgrind.h>
#define GIVEN(at) ANNOTATE_HAPPENS_BEFORE(at)
#define TAKEN(at) ANNOTATE_HAPPENS_AFTER(at)
#define UNCHECKED(at) VALGRIND_HG_DISABLE_CHECKING(at, sizeof *(at))
#else
#define GIVEN(at) ((void)(at))
#define TAKEN(at) ((void)(at))
#define UNCHECKED(at) ((void)(at))
#endif

#define PLACES 64

/* The numbers of versions that are none: nothing was published, and the engine was closed. */
#define NOTHING 0
#define CLOSED UINT64_MAX

/* The bytes of a schema, and the settings with which it was read. Versions over other entities share it. */
typedef struct schema {
    atomic_size_t count;
    size_t length;
    uint32_t settings;
    char text[];
} schema;

typedef struct version {
    atomic_size_t count;
    cedar_engine main;
    schema *schema;
    cedar_shared *shared;
} version;

typedef struct handle {
    cedar_engine engine;
    version *version;
    uint64_t number;
    bool is_seed; /* made by a publisher, and not used yet */
} handle;

/* A place, on a cache line of its own. */
typedef struct place {
    _Atomic(handle *) handle;
    char rest[64 - sizeof(void *)];
} place;

struct cedar_shared {
    atomic_size_t owners, count; /* who frees it, and who uses it: the owners as one, and each version */
    atomic_size_t handles;       /* the handles that there are */
    _Atomic(uint64_t) number;    /* of the current version */
    pthread_mutex_t publishers;  /* held while a version is made of another, and while it is made current */
    pthread_mutex_t lock;        /* of `current`, and of its main handle; the number changes with them */
    version *current;
    uint64_t last; /* the number of the last version, of publishers */
    place places[2][PLACES];
};

/* Held while a version is freed: versions of different engines share entities, too. */
static pthread_mutex_t freeing = PTHREAD_MUTEX_INITIALIZER;

/* The place at which this thread looks first. */
static size_t home(void) {
    static atomic_size_t threads;
    static _Thread_local size_t number;
    if (!number) {
        number = 1 + atomic_fetch_add_explicit(&threads, 1, memory_order_relaxed);
    }
    return number;
}

/* A block of the library, or null. */
static void *block(size_t size) {
    cedar_tried tried = rattle_alloc((size + 15) & ~(size_t)15, 16);
    return tried.ok ? tried.at : NULL;
}

static void retain(atomic_size_t *count) { atomic_fetch_add_explicit(count, 1, memory_order_relaxed); }

/* Whether the last count was taken away. All that others did before is then done. */
static bool is_last(atomic_size_t *count) {
    GIVEN(count);
    bool is_last = atomic_fetch_sub_explicit(count, 1, memory_order_acq_rel) == 1;
    if (is_last) {
        TAKEN(count);
    }
    return is_last;
}

static void shared_release(cedar_shared *shared) {
    if (is_last(&shared->count)) {
        pthread_mutex_destroy(&shared->publishers);
        pthread_mutex_destroy(&shared->lock);
        rattle_dealloc(shared);
    }
}

static schema *schema_of(cedar_bytes text, uint32_t settings) {
    schema *made = block(sizeof *made + text.length);
    if (made) {
        atomic_init(&made->count, 1);
        UNCHECKED(&made->count);
        made->length = text.length;
        made->settings = settings;
        if (text.length) {
            memcpy(made->text, text.at, text.length);
        }
    }
    return made;
}

static void schema_release(schema *it) {
    if (it && is_last(&it->count)) {
        rattle_dealloc(it);
    }
}

/* A version that counts one, and leads nowhere yet. */
static version *version_new(cedar_shared *shared) {
    version *made = block(sizeof *made);
    if (!made) {
        return NULL;
    }
    *made = (version){.shared = shared};
    atomic_init(&made->count, 1);
    UNCHECKED(&made->count);
    if (cedar_raw_new(&made->main.at) != CEDAR_OK) {
        rattle_dealloc(made);
        return NULL;
    }
    retain(&shared->count);
    return made;
}

static void version_release(version *it) {
    if (it && is_last(&it->count)) {
        cedar_shared *shared = it->shared;
        pthread_mutex_lock(&freeing);
        cedar_free(&it->main);
        pthread_mutex_unlock(&freeing);
        schema_release(it->schema);
        rattle_dealloc(it);
        shared_release(shared);
    }
}

/* A handle that leads nowhere yet, or null. */
static handle *handle_new(cedar_shared *shared) {
    handle *made = block(sizeof *made);
    if (made) {
        *made = (handle){.number = NOTHING};
        if (cedar_raw_new(&made->engine.at) == CEDAR_OK) {
            retain(&shared->handles);
            return made;
        }
        rattle_dealloc(made);
    }
    return NULL;
}

static void handle_free(cedar_shared *shared, handle *it) {
    version *of = it->version;
    cedar_free(&it->engine);
    rattle_dealloc(it);
    atomic_fetch_sub_explicit(&shared->handles, 1, memory_order_relaxed);
    version_release(of);
}

/* Has a handle lead to a version, to which an engine leads that nobody else uses meanwhile. */
static uint32_t lead(handle *it, cedar_engine *from, version *to, uint64_t number) {
    uint32_t status = cedar_share(from, &it->engine);
    if (status == CEDAR_OK) {
        retain(&to->count);
        it->version = to;
        it->number = number;
    }
    return status;
}

/* Takes a handle out of a place, or null where the place has none. */
static handle *picked(place *from) {
    if (!atomic_load_explicit(&from->handle, memory_order_relaxed)) {
        return NULL;
    }
    handle *it = atomic_exchange(&from->handle, NULL);
    if (it) {
        TAKEN(it);
    }
    return it;
}

/* Puts a handle into a place. Returns false where the place has one. */
static bool is_put(place *into, handle *it) {
    handle *none = NULL;
    GIVEN(it);
    return atomic_compare_exchange_strong(&into->handle, &none, it);
}

/* Frees the handles of other versions than the current one that are on a side. */
static void sweep(cedar_shared *shared, place *side) {
    uint64_t number;
    do {
        number = atomic_load(&shared->number);
        for (size_t i = 0; i < PLACES; i++) {
            handle *it = picked(&side[i]);
            if (it && (it->number != number || !is_put(&side[i], it))) {
                handle_free(shared, it);
            }
        }
    } while (number != atomic_load(&shared->number));
}

/* Has a handle lead to the current version, or makes one. Only here a request takes a lock. */
static uint32_t renewed(cedar_shared *shared, handle *it, handle **taken) {
    if (!it && !(it = handle_new(shared))) {
        return CEDAR_MEMORY;
    }
    version *old = it->version;
    it->is_seed = false;
    pthread_mutex_lock(&shared->lock);
    uint32_t status = shared->current ? lead(it, &shared->current->main, shared->current, atomic_load(&shared->number)) : CEDAR_CLOSED;
    pthread_mutex_unlock(&shared->lock);
    if (status != CEDAR_OK) {
        handle_free(shared, it);
        return status;
    }
    version_release(old);
    *taken = it;
    return CEDAR_OK;
}

/* A handle of this thread's own in place of one that a publisher has made, or that one without memory. What the proved part writes for a
 * handle is then in memory that this thread has asked for, away from that of others: two threads that write to one cache line take twice the
 * time. */
static handle *of_seed(cedar_shared *shared, handle *seed) {
    handle *own = handle_new(shared);
    seed->is_seed = false;
    if (!own || lead(own, &seed->engine, seed->version, seed->number) != CEDAR_OK) {
        if (own) {
            handle_free(shared, own);
        }
        return seed;
    }
    handle_free(shared, seed);
    return own;
}

/* Takes a handle of a version that is current now. */
static uint32_t take(cedar_shared *shared, handle **taken) {
    if (!shared) {
        return CEDAR_ARGUMENT;
    }
    uint64_t number = atomic_load(&shared->number);
    if (number == NOTHING || number == CLOSED) {
        return number == CLOSED ? CEDAR_CLOSED : CEDAR_NO_ENGINE;
    }
    handle *it = NULL;
    place *side = shared->places[number & 1];
    for (size_t i = 0, first = home(); i < PLACES && !it; i++) {
        it = picked(&side[(first + i) % PLACES]);
    }
    if (it && it->number == number) {
        *taken = it->is_seed ? of_seed(shared, it) : it;
        return CEDAR_OK;
    }
    return renewed(shared, it, taken);
}

/* Puts a handle back, or frees it. */
static void give(cedar_shared *shared, handle *it) {
    uint64_t number = it->number;
    place *side = shared->places[number & 1];
    for (size_t i = 0, first = home(); i < PLACES && number == atomic_load(&shared->number); i++) {
        if (is_put(&side[(first + i) % PLACES], it)) {
            /* A publisher that did not see the handle in its place has changed the number before this. */
            if (number != atomic_load(&shared->number)) {
                sweep(shared, side);
            }
            return;
        }
    }
    handle_free(shared, it);
}

/* Fills the places of a version that is not yet current with as many handles as there are, and first those whose places of the old version
 * have one. Without memory there are fewer. */
static void fill(cedar_shared *shared, version *next, uint64_t number) {
    size_t missing = atomic_load_explicit(&shared->handles, memory_order_relaxed);
    place *side = shared->places[number & 1], *old = shared->places[(number + 1) & 1];
    for (size_t i = 1; i <= 2 * PLACES && missing; i++) {
        size_t at = i % PLACES;
        if (i < PLACES && !atomic_load_explicit(&old[at].handle, memory_order_relaxed)) {
            continue;
        }
        handle *it = handle_new(shared);
        if (!it) {
            return;
        }
        it->is_seed = true;
        bool is_there = lead(it, &next->main, next, number) == CEDAR_OK && is_put(&side[at], it);
        if (!is_there) {
            handle_free(shared, it);
        }
        missing -= is_there;
    }
}

/* Makes a version current, and frees what no running call uses of the old one. The caller has the lock of publishers. Where the engine is
 * closed, the version is freed. */
static uint32_t swap(cedar_shared *shared, version *next) {
    uint64_t number = ++shared->last;
    fill(shared, next, number);
    pthread_mutex_lock(&shared->lock);
    bool is_open = atomic_load(&shared->number) != CLOSED;
    version *old = is_open ? shared->current : next;
    if (is_open) {
        shared->current = next;
        atomic_store(&shared->number, number);
    }
    pthread_mutex_unlock(&shared->lock);
    version_release(old);
    sweep(shared, shared->places[is_open ? (number + 1) & 1 : number & 1]);
    return is_open ? CEDAR_OK : CEDAR_CLOSED;
}

/* Has a new version lead to the current one of an engine, with its schema. */
static uint32_t follow(cedar_shared *shared, version *next) {
    pthread_mutex_lock(&shared->lock);
    version *current = shared->current;
    uint32_t status = current ? cedar_share(&current->main, &next->main)
        : atomic_load(&shared->number) == CLOSED ? CEDAR_CLOSED : CEDAR_NO_ENGINE;
    if (status == CEDAR_OK) {
        next->schema = current->schema;
        retain(&current->schema->count);
    }
    pthread_mutex_unlock(&shared->lock);
    return status;
}

/* Publishes entities or changes to a new version of `to` that follows the current one of `from`. With another status than CEDAR_OK there is
 * no version. */
static uint32_t followed(cedar_shared *from, cedar_shared *to, cedar_publication *publication, version **made, cedar_refusal *refusal,
                         cedar_buffer *text) {
    version *next = version_new(to);
    if (!next) {
        return CEDAR_MEMORY;
    }
    uint32_t status = follow(from, next);
    if (status == CEDAR_OK) {
        publication->files.size = sizeof publication->files;
        publication->files.schema = (cedar_bytes){next->schema->text, next->schema->length};
        publication->files.settings = next->schema->settings;
        status = cedar_publish_this(&next->main, publication, refusal, text);
    }
    if (status != CEDAR_OK) {
        version_release(next);
        return status;
    }
    *made = next;
    return CEDAR_OK;
}

/* Publishes entities or changes, one publisher after another. */
static uint32_t publish_after(cedar_shared *shared, cedar_publication *publication, cedar_refusal *refusal, cedar_buffer *text) {
    version *next;
    pthread_mutex_lock(&shared->publishers);
    uint32_t status = followed(shared, shared, publication, &next, refusal, text);
    if (status == CEDAR_OK) {
        status = swap(shared, next);
    }
    pthread_mutex_unlock(&shared->publishers);
    return status;
}

/* Whether the arguments of a call that publishes are right. Nothing is written yet. */
static bool can_publish(cedar_shared *shared, cedar_bytes given, cedar_refusal *refusal, cedar_buffer *text) {
    if (text) {
        text->written = 0;
    }
    return shared && cedar_are_bytes(given) && cedar_is_refusal(refusal) && cedar_is_room(text);
}

uint32_t cedar_shared_new(cedar_shared **shared) {
    if (!shared) {
        return CEDAR_ARGUMENT;
    }
    cedar_shared *made = *shared = block(sizeof *made);
    if (!made) {
        return CEDAR_MEMORY;
    }
    memset(made, 0, sizeof *made);
    UNCHECKED(made);
    atomic_init(&made->owners, 1);
    atomic_init(&made->count, 1);
    pthread_mutex_init(&made->publishers, NULL);
    pthread_mutex_init(&made->lock, NULL);
    return CEDAR_OK;
}

void cedar_shared_retain(cedar_shared *shared) {
    if (shared) {
        retain(&shared->owners);
    }
}

void cedar_shared_free(cedar_shared *shared) {
    if (shared && is_last(&shared->owners)) {
        cedar_shared_close(shared);
        shared_release(shared);
    }
}

void cedar_shared_close(cedar_shared *shared) {
    if (!shared) {
        return;
    }
    pthread_mutex_lock(&shared->lock);
    version *old = shared->current;
    shared->current = NULL;
    atomic_store(&shared->number, CLOSED);
    pthread_mutex_unlock(&shared->lock);
    version_release(old);
    sweep(shared, shared->places[0]);
    sweep(shared, shared->places[1]);
}

uint32_t cedar_shared_publish(cedar_shared *shared, const cedar_files *files, cedar_refusal *refusal, cedar_buffer *text) {
    if (!can_publish(shared, (cedar_bytes){NULL, 0}, refusal, text) || !cedar_are_files(files)) {
        return CEDAR_ARGUMENT;
    }
    version *next = version_new(shared);
    if (!next) {
        return CEDAR_MEMORY;
    }
    uint32_t status = cedar_publish(&next->main, files, refusal, text);
    if (status == CEDAR_OK && !(next->schema = schema_of(files->schema, files->settings))) {
        status = CEDAR_MEMORY;
    }
    if (status != CEDAR_OK) {
        version_release(next);
        return status;
    }
    pthread_mutex_lock(&shared->publishers);
    status = swap(shared, next);
    pthread_mutex_unlock(&shared->publishers);
    return status;
}

uint32_t cedar_shared_publish_entities(cedar_shared *shared, cedar_bytes entities, cedar_refusal *refusal, cedar_buffer *text) {
    if (!can_publish(shared, entities, refusal, text)) {
        return CEDAR_ARGUMENT;
    }
    cedar_publication publication = {.kind = CEDAR_NEW_ENTITIES, .files = {.entities = entities}};
    return publish_after(shared, &publication, refusal, text);
}

uint32_t cedar_shared_publish_changes(cedar_shared *shared, cedar_bytes changes, cedar_refusal *refusal, cedar_buffer *text) {
    if (!can_publish(shared, changes, refusal, text)) {
        return CEDAR_ARGUMENT;
    }
    cedar_publication publication = {.kind = CEDAR_SOME_CHANGES, .changes = changes};
    return publish_after(shared, &publication, refusal, text);
}

uint32_t cedar_shared_with_changes(cedar_shared *shared, cedar_bytes changes, cedar_shared **other, cedar_refusal *refusal,
                                   cedar_buffer *text) {
    version *next;
    if (other) {
        *other = NULL;
    }
    if (!other || !can_publish(shared, changes, refusal, text)) {
        return CEDAR_ARGUMENT;
    }
    cedar_shared *made;
    uint32_t status = cedar_shared_new(&made);
    if (status != CEDAR_OK) {
        return status;
    }
    cedar_publication publication = {.kind = CEDAR_SOME_CHANGES, .changes = changes};
    status = followed(shared, made, &publication, &next, refusal, text);
    if (status != CEDAR_OK) {
        cedar_shared_free(made);
        return status;
    }
    swap(made, next);
    *other = made;
    return CEDAR_OK;
}

uint32_t cedar_shared_kept_changes(cedar_shared *shared, uint64_t *count) {
    handle *it;
    uint32_t status = take(shared, &it);
    if (status != CEDAR_OK) {
        cedar_kept_changes(NULL, count);
        return status;
    }
    status = cedar_kept_changes(&it->engine, count);
    give(shared, it);
    return status;
}

uint32_t cedar_shared_decide(cedar_shared *shared, const cedar_request *request, cedar_decision *decision, cedar_buffer *text) {
    handle *it;
    uint32_t status = take(shared, &it);
    if (status != CEDAR_OK) {
        /* A null handle is refused, and has nothing decided. */
        cedar_decide(NULL, request, decision, text);
        return status;
    }
    status = cedar_decide(&it->engine, request, decision, text);
    give(shared, it);
    return status;
}

/* Calls over one handle that write a text of lines. */
typedef uint32_t answering(cedar_engine *engine, cedar_bytes lines, cedar_buffer *text);

static uint32_t answer(answering *call, cedar_shared *shared, cedar_bytes lines, cedar_buffer *text) {
    handle *it;
    uint32_t status = take(shared, &it);
    if (status != CEDAR_OK) {
        call(NULL, lines, text);
        return status;
    }
    status = call(&it->engine, lines, text);
    give(shared, it);
    return status;
}

uint32_t cedar_shared_answer(cedar_shared *shared, cedar_bytes lines, cedar_buffer *text) {
    return answer(cedar_answer, shared, lines, text);
}

uint32_t cedar_shared_answer_with_entities(cedar_shared *shared, cedar_bytes lines, cedar_buffer *text) {
    return answer(cedar_answer_with_entities, shared, lines, text);
}

uint32_t cedar_shared_answer_line(cedar_shared *shared, cedar_bytes line, cedar_buffer *text) {
    return answer(cedar_answer_line, shared, line, text);
}

uint32_t cedar_shared_explain_line(cedar_shared *shared, cedar_bytes line, uint32_t kind, uint32_t number, uint32_t format,
                                   cedar_buffer *text) {
    handle *it;
    uint32_t status = take(shared, &it);
    if (status != CEDAR_OK) {
        cedar_explain_line(NULL, line, kind, number, format, text);
        return status;
    }
    status = cedar_explain_line(&it->engine, line, kind, number, format, text);
    give(shared, it);
    return status;
}

uint32_t cedar_shared_explain_request(cedar_shared *shared, const cedar_request *request, uint32_t number, uint32_t format,
                                      cedar_buffer *text) {
    handle *it;
    uint32_t status = take(shared, &it);
    if (status != CEDAR_OK) {
        cedar_explain_request(NULL, request, number, format, text);
        return status;
    }
    status = cedar_explain_request(&it->engine, request, number, format, text);
    give(shared, it);
    return status;
}
