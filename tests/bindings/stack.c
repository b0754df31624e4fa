/* Makes the calls on threads with the stacks that cedar.h promises are enough, over the highest and the deepest texts that are accepted.
 *
 *   stack FOLDER         FOLDER is examples/notes. Ends with the counts of what passed and failed
 *   stack FOLDER least   prints the least stack of each call, in KiB, instead */
#include "files.h"

#include <pthread.h>
#include <sys/mman.h>
#include <sys/wait.h>
#include <unistd.h>

#define READING_STACK ((size_t)512 << 10)
#define ASKING_STACK ((size_t)64 << 10)
/* The memory below a stack, which no call may reach. It is larger than the frame of any function. */
#define CLOSED ((size_t)1 << 20)
#define COUNT(list) (sizeof(list) / sizeof *(list))

/* A text: its beginning, what opens `depth` times, its middle, what closes as often, and its end. */
typedef struct form {
    const char *name, *begin, *open;
    size_t depth;
    const char *middle, *close, *end;
} form;

#define HEAD "permit(principal, action, resource) when { "
/* What is after the id of the principal in a request line. */
#define ASKED "\",\"action\":\"Action::\\\"write\\\"\",\"resource\":\"Notebook::\\\"plans\\\"\""
#define ANN "{\"principal\":\"User::\\\"ann\\\"" ASKED

/* The height of a condition is at most 2,000, that of the scope with it, and 100 brackets are open at most. */
static const form policies[] = {
    {"a sum of height 100", HEAD "1", " + 1", 100, "", "", " > 0 };"},
    {"a sum of height 1,990", HEAD "1", " + 1", 1990, "", "", " > 0 };"},
    {"`&&`, 1,990 high", HEAD "true", " && true", 1990, "", "", " };"},
    {"`||`, 1,990 high", HEAD "true", " || false", 1990, "", "", " };"},
    {"attributes of attributes, 1,990 high", HEAD "context", ".a", 1990, "", "", " };"},
    {"`has` of a path, 300 long", HEAD "context has a", ".a", 300, "", "", " };"},
    {"methods, 900 high", HEAD "[1]", ".contains(1)", 900, "", "", " };"},
    {"brackets and `!`, 98 deep", HEAD, "!!!!(", 98, "true", ")", " };"},
    {"brackets and `-`, 98 deep", HEAD "1 == ", "----(", 98, "1", ")", " };"},
    {"brackets and chains, 98 deep", HEAD, "true && true && true && true && true && (!!!!", 98, "true", ")", " };"},
    {"all levels, 98 deep", HEAD "true", " || true && 1 < 1 + 1 * ----(1", 98, "", ")", " };"},
    {"`if` in `if`, 98 deep", HEAD, "if true then true else ", 98, "true", "", " };"},
    {"`if` in a condition, 98 deep", HEAD, "if ", 98, "true", " then true else true", " };"},
    {"sets in sets, 98 deep", HEAD "[1] == ", "[", 98, "1", "]", " };"},
    {"records in records, 98 deep", HEAD "true || 1 == ", "{a: ", 98, "1", "}", " };"},
    {"arguments in arguments, 98 deep", HEAD, "[true].contains(", 98, "true", ")", " };"},
    {"`is` and `in`, 6 deep", HEAD, "resource is User in (", 6, "resource", ")", " };"},
    {"a set of 99,990", HEAD "[1", ", 1", 99990, "", "", "].contains(1) };"},
};

/* JSON nests at most 126 deep. */
static const form lines[] = {
    {"a line", ANN, "", 0, "}", "", ""},
    {"nothing", "", "", 0, "", "", ""},
    {"open arrays", "", "[", 100000, "", "", ""},
    {"open objects", "", "{\"a\":", 100000, "", "", ""},
    {"an id of 60,000 bytes", "{\"principal\":\"User::\\\"", "a", 60000, "\\\"" ASKED "}", "", ""},
    {"a type of 20,000 words", "{\"principal\":\"User", "::A", 20000, "::\\\"ann\\\"" ASKED "}", "", ""},
    {"a context of 125 objects", ANN ",\"context\":", "{\"a\":", 125, "1", "}", "}"},
    {"a context of 124 arrays", ANN ",\"context\":{\"a\":", "[", 124, "1", "]", "}}"},
    {"an entity", ANN ",\"entities\":[{\"uid\":{\"type\":\"User\",\"id\":\"ann\"}}]}", "", 0, "", "", ""},
    {"entities of 125 arrays", ANN ",\"entities\":", "[", 125, "", "]", "}"},
};

/* Schemas with a user whose attribute is as high as a type may be, and entities for each. A type is at most 100 high. */
#define USERS \
    "{\"\":{\"actions\":{\"write\":{\"appliesTo\":{\"principalTypes\":[\"User\"],\"resourceTypes\":[\"User\"]}}}," \
    "\"entityTypes\":{\"User\":{\"memberOfTypes\":[\"User\"]," \
    "\"shape\":{\"type\":\"Record\",\"attributes\":{\"a\":"
#define NUMBER "{\"type\":\"Long\"}"
#define USER "[{\"uid\":{\"type\":\"User\",\"id\":\"0\"},\"attrs\":{\"a\":"
/* The request of this user. Lines that bring entities are made of it. */
#define USER_LINE "{\"principal\":\"User::\\\"0\\\"\",\"action\":\"Action::\\\"write\\\"\",\"resource\":\"User::\\\"0\\\"\"}"
static const form schemas[] = {
    {"sets", USERS, "{\"type\":\"Set\",\"element\":", 98, NUMBER, "}", "}}}}}}"},
    {"records", USERS, "{\"type\":\"Record\",\"attributes\":{\"a\":", 60, NUMBER, "}}", "}}}}}}"},
};
static const form entities[] = {
    {"sets in sets, 98 deep", USER, "[", 98, "1", "]", "}}]"},
    {"records in records, 60 deep", USER, "{\"a\":", 60, "1", "}", "}}]"},
};
/* Texts that are refused, or make no deep values. */
static const form other_entities[] = {
    {"no entities", "[]", "", 0, "", "", ""},
    {"open arrays", USER, "[", 100000, "", "", ""},
    {"open objects", "", "{\"a\":", 100000, "", "", ""},
    {"an object of 100,000 members", USER "{\"a\":1", ",\"a\":1", 100000, "}", "", "}}]"},
    {"arrays in arrays, 122 deep", USER, "[", 122, "1", "]", "}}]"},
    {"objects in objects, 122 deep", USER, "{\"a\":", 122, "1", "}", "}}]"},
};
/* The status of a call that publishes one of these. */
static uint32_t status_of(size_t other) { return other == 0 ? CEDAR_OK : CEDAR_REFUSED; }

/* So many users are each a child of the next. */
#define CHAIN 20000
/* Changes keep a set for each group of a chain, so they take memory by the square of its length. */
#define CHANGED_CHAIN 1000

static cedar_files files;
/* The engine of the texts, and another one that is small. */
static cedar_engine engine, small;
static cedar_bytes asked_line, changes;
/* Why the last changes were refused, or 0. */
static cedar_refusal refusal = {.size = sizeof refusal, .file = 0, .number = 0, .offset = 0};
static char room[1 << 16];

static cedar_bytes text_of(const form *form) {
    size_t each = strlen(form->open) + strlen(form->close);
    size_t length = strlen(form->begin) + each * form->depth + strlen(form->middle) + strlen(form->end);
    char *at = malloc(length + 1), *to = at;
    if (!at) {
        exit(9);
    }
    to = stpcpy(to, form->begin);
    for (size_t i = 0; i < form->depth; i++) {
        to = stpcpy(to, form->open);
    }
    to = stpcpy(to, form->middle);
    for (size_t i = 0; i < form->depth; i++) {
        to = stpcpy(to, form->close);
    }
    stpcpy(to, form->end);
    return (cedar_bytes){at, length};
}

/* Entities of users in a chain of this length. */
static cedar_bytes chain(int length) {
    char *at = malloc((size_t)length * 100 + 2), *to = at;
    if (!at) {
        exit(9);
    }
    for (int i = 0; i < length; i++) {
        to += sprintf(to, "%c{\"uid\":{\"type\":\"User\",\"id\":\"%d\"},\"attrs\":{\"a\":[]}", i ? ',' : '[', i);
        to += i + 1 < length ? sprintf(to, ",\"parents\":[{\"type\":\"User\",\"id\":\"%d\"}]}", i + 1) : sprintf(to, "}");
    }
    *to++ = ']';
    return (cedar_bytes){at, (size_t)(to - at)};
}

/* The calls. Each sets whether its status is one that these texts may have. */
static int is_right;
static uint32_t wanted;

static void *publishes(void *none) {
    uint32_t status = cedar_publish(&engine, &files, NULL, NULL);
    is_right = status == CEDAR_OK || status == CEDAR_FAULTS;
    return none;
}

static void *publishes_entities(void *none) {
    is_right = cedar_publish_entities(&engine, files.entities, NULL, NULL) == wanted;
    return none;
}

static void *publishes_changes(void *none) {
    is_right = cedar_publish_changes(&engine, changes, &refusal, NULL) == wanted;
    return none;
}

/* Explains the changes in each format: with the number for which they were refused, or with a number that changes may get. */
static void *explains_changes(void *none) {
    uint32_t number = refusal.number ? refusal.number : 504;
    is_right = 1;
    for (uint32_t format = CEDAR_WORDS; format <= CEDAR_JSON; format++) {
        cedar_buffer text = {room, sizeof room, 0};
        uint32_t status = cedar_explain_changes(files.schema, changes, number, format, &text);
        is_right = is_right && status == CEDAR_OK && text.written > 0;
    }
    return none;
}

/* Has the handle lead to the small engine. It is the last one of its engine, which is freed. */
static void *shares(void *none) {
    is_right = cedar_share(&small, &engine) == CEDAR_OK;
    return none;
}

static void *validates(void *none) {
    cedar_buffer text = {room, sizeof room, 0};
    uint32_t status = cedar_validate(&files, &text);
    is_right = status == CEDAR_OK || status == CEDAR_FAULTS;
    return none;
}

static void *validates_a_part(void *none) {
    cedar_buffer text = {room, sizeof room, 0};
    cedar_report_place place = {.size = sizeof place, .lines = CEDAR_ALL_LINES};
    uint32_t status = cedar_validate_part(&files, &place, NULL, &text);
    is_right = (status == CEDAR_OK || status == CEDAR_FAULTS) && place.policy == 1;
    return none;
}

static void *counts_changes(void *none) {
    uint64_t count;
    is_right = cedar_kept_changes(&engine, &count) == CEDAR_OK;
    return none;
}

static void *explains(void *none) {
    cedar_buffer text = {room, sizeof room, 0};
    is_right = cedar_explain(&files, CEDAR_WORDS, &text) == CEDAR_OK;
    return none;
}

static void *frees(void *none) {
    cedar_free(&engine);
    is_right = 1;
    return none;
}

static void *answers(void *none) {
    cedar_buffer text = {room, sizeof room, 0};
    cedar_request request = asked("write");
    cedar_decision decision = {sizeof decision, 7, 7};
    request.context = asked_line;
    uint32_t status = cedar_answer(&engine, asked_line, &text) + cedar_answer_line(&engine, asked_line, &text);
    uint32_t decided = cedar_decide(&engine, &request, &decision, NULL);
    is_right = status == CEDAR_OK && (decided == CEDAR_OK || decided == CEDAR_NO_REQUEST);
    return none;
}

static void *answers_with_entities(void *none) {
    cedar_buffer text = {room, sizeof room, 0};
    is_right = cedar_answer_with_entities(&engine, asked_line, &text) == CEDAR_OK;
    return none;
}

/* Explains why a line is refused, as a line of each kind, and why a request with the line as its context is. */
static void *explains_lines(void *none) {
    cedar_request request = asked("write");
    request.context = asked_line;
    is_right = 1;
    for (uint32_t kind = CEDAR_LINE; kind <= CEDAR_LINE_WITH_ENTITIES; kind++) {
        cedar_buffer text = {room, sizeof room, 0};
        is_right = is_right && cedar_explain_line(&engine, asked_line, kind, 0, CEDAR_WORDS, &text) == CEDAR_OK;
    }
    cedar_buffer text = {room, sizeof room, 0};
    is_right = is_right && cedar_explain_request(&engine, &request, 0, CEDAR_WORDS, &text) == CEDAR_OK;
    return none;
}

/* Makes a call on a stack of this size, which is not a larger one that another thread has left. */
static void on_a_stack(size_t size, void *(*call)(void *)) {
    pthread_attr_t attributes;
    pthread_t thread;
    char *at = mmap(NULL, CLOSED + size, PROT_NONE, MAP_PRIVATE | MAP_ANONYMOUS, -1, 0);
    is_right = 0;
    if (at == MAP_FAILED || mprotect(at + CLOSED, size, PROT_READ | PROT_WRITE) || pthread_attr_init(&attributes) ||
        pthread_attr_setstack(&attributes, at + CLOSED, size) || pthread_create(&thread, &attributes, call, NULL)) {
        exit(9);
    }
    pthread_join(thread, NULL);
    pthread_attr_destroy(&attributes);
    munmap(at, CLOSED + size);
}

/* Whether a call ends on a stack of this size, tried in a process of its own. */
static int ends(size_t size, void *(*call)(void *)) {
    int status;
    pid_t child = fork();
    if (child == 0) {
        on_a_stack(size, call);
        _exit(!is_right);
    }
    return child > 0 && waitpid(child, &status, 0) == child && WIFEXITED(status) && WEXITSTATUS(status) == 0;
}

/* The least stack of a call, in KiB, in steps of 4. */
static size_t least(void *(*call)(void *)) {
    size_t low = 12, high = 16 << 10;
    while (high - low > 4) {
        size_t middle = (low + high) / 8 * 4;
        if (ends(middle << 10, call)) {
            high = middle;
        } else {
            low = middle;
        }
    }
    return high;
}

/* Publishes a policy to the small engine. */
static void open_small(void) {
    cedar_files few = files;
    few.policies = bytes_of("permit(principal, action, resource);");
    if (cedar_new(&small) != CEDAR_OK || cedar_publish(&small, &few, NULL, NULL) != CEDAR_OK) {
        exit(9);
    }
}

static void open_engine(const form *form) {
    files.policies = text_of(form);
    if (cedar_new(&engine) != CEDAR_OK) {
        exit(9);
    }
}

static void close_engine(void) {
    cedar_free(&engine);
    free((void *)files.policies.at);
}

/* Publishes a schema of `schemas` with no entities. One policy permits all, and the other one compares the deep values. */
static void open_schema(const form *form) {
    cedar_bytes both = bytes_of("permit(principal, action, resource); " HEAD "principal.a == resource.a };");
    files = (cedar_files){sizeof files, text_of(form), both, {NULL, 0}, bytes_of("[]"), 0, 0};
    if (cedar_new(&engine) != CEDAR_OK) {
        exit(9);
    }
    on_a_stack(READING_STACK, publishes);
    CHECK(is_right);
}

static void close_schema(void) {
    on_a_stack(READING_STACK, frees);
    free((void *)files.schema.at);
}

/* Has a line bring the entities, which are accepted or not. */
static void check_line(int is_accepted) {
    const char *begin = is_accepted ? "{\"decision\":\"allow\"" : "{\"refused\":";
    asked_line = bringing(bytes_of(USER_LINE), files.entities);
    room[0] = '\0';
    on_a_stack(ASKING_STACK, answers_with_entities);
    CHECK(is_right && strncmp(room, begin, strlen(begin)) == 0);
    on_a_stack(READING_STACK, explains_lines);
    CHECK(is_right);
    free((void *)asked_line.at);
}

/* Publishes the entities alone, then upserts each of them, and has a line bring them. They are freed. */
static void check_text(uint32_t status) {
    wanted = status;
    on_a_stack(READING_STACK, publishes_entities);
    CHECK(is_right);
    changes = upserts(files.entities);
    on_a_stack(READING_STACK, publishes_changes);
    CHECK(is_right);
    on_a_stack(ASKING_STACK, counts_changes);
    CHECK(is_right);
    on_a_stack(READING_STACK, explains_changes);
    CHECK(is_right);
    check_line(status == CEDAR_OK);
    free((void *)changes.at);
    free((void *)files.entities.at);
}

static void check_entities(const form *form, uint32_t status) {
    files.entities = text_of(form);
    check_text(status);
}

/* Publishes entities over deep ones, which are freed then. */
static void check_all_entities(void) {
    for (size_t i = 0; i < COUNT(schemas); i++) {
        open_schema(&schemas[i]);
        check_entities(&entities[i], CEDAR_OK);
        check_entities(&entities[i], CEDAR_OK);
        for (size_t k = 0; k < COUNT(other_entities); k++) {
            check_entities(&other_entities[k], status_of(k));
        }
        check_entities(&entities[i], CEDAR_OK);
        close_schema();
    }
    open_schema(&schemas[0]);
    files.entities = chain(CHAIN);
    wanted = CEDAR_OK;
    on_a_stack(READING_STACK, publishes_entities);
    CHECK(is_right);
    free((void *)files.entities.at);
    files.entities = chain(CHANGED_CHAIN);
    check_text(CEDAR_OK);
    close_schema();
}

/* Prints the least stacks of the calls that read these entities. */
static void print_least_for(const form *schema, const form *form, uint32_t status) {
    wanted = status;
    files.entities = text_of(form);
    changes = upserts(files.entities);
    asked_line = bringing(bytes_of(USER_LINE), files.entities);
    printf("| %s: %s |", schema->name, form->name);
    printf(" %zu | %zu | %zu |", least(publishes_entities), least(publishes_changes), least(answers_with_entities));
    printf(" %zu |", least(explains_lines));
    refusal.number = 0;
    if (status == CEDAR_REFUSED) {
        on_a_stack(64 << 20, publishes_changes);
    }
    printf(" %zu |\n", least(explains_changes));
    fflush(stdout);
    free((void *)asked_line.at);
    free((void *)changes.at);
    free((void *)files.entities.at);
}

static void print_least_of_entities(void) {
    printf("\n| Entities | publish entities | publish changes | answer a line that brings them | explain the line | explain changes |\n");
    printf("|---|---|---|---|---|---|\n");
    for (size_t i = 0; i < COUNT(schemas); i++) {
        open_schema(&schemas[i]);
        print_least_for(&schemas[i], &entities[i], CEDAR_OK);
        for (size_t k = 0; k < COUNT(other_entities); k++) {
            print_least_for(&schemas[i], &other_entities[k], status_of(k));
        }
        close_schema();
    }
}

static void print_least(void) {
    printf("| Policies | publish | validate | validate a part | explain | share | free |\n|---|---|---|---|---|---|---|\n");
    for (size_t i = 0; i < COUNT(policies); i++) {
        open_engine(&policies[i]);
        printf("| %s | %zu | %zu | %zu |", policies[i].name, least(publishes), least(validates), least(validates_a_part));
        printf(" %zu |", least(explains));
        fflush(stdout);
        on_a_stack(64 << 20, publishes);
        printf(" %zu |", least(shares));
        printf(" %zu |\n", least(frees));
        close_engine();
    }
    printf("\n| Lines | answer | answer with entities | explain |\n|---|---|---|---|\n");
    open_engine(&policies[0]);
    on_a_stack(64 << 20, publishes);
    for (size_t i = 0; i < COUNT(lines); i++) {
        asked_line = text_of(&lines[i]);
        printf("| %s | %zu | %zu |", lines[i].name, least(answers), least(answers_with_entities));
        printf(" %zu |\n", least(explains_lines));
        free((void *)asked_line.at);
    }
    close_engine();
    print_least_of_entities();
}

static void check(const form *form) {
    open_engine(form);
    on_a_stack(READING_STACK, publishes);
    CHECK(is_right);
    on_a_stack(READING_STACK, validates);
    CHECK(is_right);
    on_a_stack(READING_STACK, validates_a_part);
    CHECK(is_right);
    on_a_stack(READING_STACK, explains);
    CHECK(is_right);
    for (size_t i = 0; i < COUNT(lines); i++) {
        asked_line = text_of(&lines[i]);
        cedar_buffer text = {room, sizeof room, 0};
        if (cedar_answer(&engine, asked_line, &text) != CEDAR_NO_ENGINE) {
            on_a_stack(ASKING_STACK, answers);
            CHECK(is_right);
            on_a_stack(ASKING_STACK, answers_with_entities);
            CHECK(is_right);
            on_a_stack(READING_STACK, explains_lines);
            CHECK(is_right);
        }
        free((void *)asked_line.at);
    }
    on_a_stack(READING_STACK, shares);
    CHECK(is_right);
    on_a_stack(READING_STACK, publishes);
    CHECK(is_right);
    on_a_stack(READING_STACK, frees);
    CHECK(is_right);
    close_engine();
}

int main(int count, char **words) {
    if (count != 2 && !(count == 3 && strcmp(words[2], "least") == 0)) {
        return 9;
    }
    files = files_of(words[1]);
    free((void *)files.policies.at);
    open_small();
    if (count == 3) {
        print_least();
        return 0;
    }
    for (size_t i = 0; i < COUNT(policies); i++) {
        check(&policies[i]);
    }
    files.policies = (cedar_bytes){NULL, 0};
    free_files(&files);
    check_all_entities();
    cedar_free(&small);
    return counted();
}
