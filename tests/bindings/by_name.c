/* A host as another language makes one: it loads the library, finds each call by its name, and has no header. by_name LIBRARY FOLDER, where
 * FOLDER is examples/notes. Structs and calls are as cedar.h says. */
#include <dlfcn.h>
#include <stdint.h>
#include <stdio.h>
#include <stdlib.h>
#include <string.h>

typedef struct bytes {
    const void *at;
    size_t length;
} bytes;
typedef struct buffer {
    void *at;
    size_t room, written;
} buffer;
typedef struct files {
    size_t size;
    bytes schema, policies, links, entities;
    uint32_t settings, reserved;
} files;
typedef struct request {
    size_t size;
    bytes parts[7];
} request;
typedef struct decision {
    size_t size;
    uint32_t allow, refused;
} decision;
typedef struct place {
    size_t size;
    uint64_t policy, faults, warnings, lines;
} place;

static int passed, failed;
static void *library;

static void check(int is_right, const char *what) {
    *(is_right ? &passed : &failed) += 1;
    if (!is_right) {
        printf("%s\n", what);
    }
}

/* A call of this name. */
static void *named(const char *name) {
    void *found = dlsym(library, name);
    check(found != NULL, name);
    if (!found) {
        exit(9);
    }
    return found;
}

static bytes text(const char *it) { return (bytes){it, strlen(it)}; }

static bytes content(const char *folder, const char *name) {
    char path[4096], *at = malloc(1 << 20);
    snprintf(path, sizeof path, "%s/%s", folder, name);
    FILE *file = fopen(path, "rb");
    if (!file || !at) {
        exit(9);
    }
    size_t length = fread(at, 1, 1 << 20, file);
    fclose(file);
    return (bytes){at, length};
}

int main(int count, char **words) {
    if (count != 3 || !(library = dlopen(words[1], RTLD_NOW | RTLD_LOCAL))) {
        return 9;
    }
    uint32_t (*make)(void **) = (uint32_t(*)(void **))named("cedar_shared_new");
    uint32_t (*publish)(void *, const files *, void *, buffer *) =
        (uint32_t(*)(void *, const files *, void *, buffer *))named("cedar_shared_publish");
    uint32_t (*decide)(void *, const request *, decision *, buffer *) =
        (uint32_t(*)(void *, const request *, decision *, buffer *))named("cedar_shared_decide");
    uint32_t (*answer)(void *, bytes, buffer *) = (uint32_t(*)(void *, bytes, buffer *))named("cedar_shared_answer");
    uint32_t (*validate)(const files *, place *, void *, buffer *) =
        (uint32_t(*)(const files *, place *, void *, buffer *))named("cedar_validate_part");
    uint32_t (*kept)(void *, uint64_t *) = (uint32_t(*)(void *, uint64_t *))named("cedar_shared_kept_changes");
    void (*release)(void *) = (void (*)(void *))named("cedar_shared_free");
    uint32_t (*abi)(void) = (uint32_t(*)(void))named("cedar_abi_version");
    const char *(*said)(uint32_t) = (const char *(*)(uint32_t))named("cedar_status_text");
    void *shared;
    char room[1 << 14];
    buffer told = {room, sizeof room, 0};
    bytes answers = content(words[2], "answers.jsonl");
    files all = {sizeof all, content(words[2], "schema.json"), content(words[2], "policies.cedar"), {NULL, 0}, content(words[2], "entities.json"),
                 0, 0};
    request asked = {sizeof asked, {text("User"), text("ann"), text("Action"), text("write"), text("Notebook"), text("plans"), {NULL, 0}}};
    decision decided = {sizeof decided, 7, 7};
    check(abi() == 1 && strcmp(said(0), "done") == 0, "the version");
    check(make(&shared) == 0 && publish(shared, &all, NULL, NULL) == 0, "publishing");
    check(decide(shared, &asked, &decided, NULL) == 0 && decided.allow == 1, "deciding");
    check(answer(shared, content(words[2], "requests.jsonl"), &told) == 0 && told.written == answers.length, "answering");
    check(memcmp(room, answers.at, answers.length) == 0, "the answers");
    place at = {sizeof at, 0, 7, 7, 0};
    bytes report = text("{\"faults\":7,\"warnings\":7}\n");
    check(validate(&all, &at, NULL, &told) == 3 && at.policy > 0 && at.faults == 7 && at.lines == 0, "validating a part");
    check(told.written == report.length && memcmp(room, report.at, report.length) == 0, "the part");
    uint64_t changes = 7;
    check(kept(shared, &changes) == 0 && changes == 0, "counting changes");
    all.links = (bytes){NULL, 72};
    check(publish(shared, &all, NULL, NULL) == 4, "links that were not read");
    asked.size++;
    check(decide(shared, &asked, &decided, NULL) == 4 && decided.allow == 0, "a size that is not known");
    release(shared);
    printf("%d passed, %d failed\n", passed, failed);
    return failed != 0;
}
