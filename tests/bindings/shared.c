/* An engine for any number of threads, as C uses it: shared FOLDER VERSIONS CLOSING, where FOLDER is examples/notes.
 *
 * First what its calls refuse and say. Then eight threads ask while another publishes VERSIONS times files, entities and changes, and a
 * tenth asks over changes of its own. The policies of a version have its number as their id, and permit where it is even. Each
 * answer has to be that of a version that was current during its call: not older than the last that was published before it, and not newer
 * than the last that was begun after it. At the end CLOSING threads ask until the engine is closed. */
#include "files.h"

#include <pthread.h>
#include <stdatomic.h>
#include <time.h>

#define THREADS 8

static cedar_files files;
static cedar_bytes lines, answers;
static cedar_shared *engine;
static atomic_long begun, done, right, wrong, asking, changed;
static atomic_int is_over;
static long versions, closing;

/* Shared calls as those over one handle: whether all answers are right. */
static int answers_are_right(cedar_shared *shared) {
    char room[4096];
    cedar_buffer text = {room, sizeof room, 0};
    return cedar_shared_answer(shared, lines, &text) == CEDAR_OK && has(&text, answers);
}

/* What each call returns over an engine that has none, or is closed. */
static void check_all(cedar_shared *shared, uint32_t status) {
    cedar_request request = asked("write");
    cedar_decision decision = {sizeof decision, 7, 7};
    cedar_shared *other = engine;
    char room[] = "####";
    cedar_buffer text = {room, 4, 9};
    uint64_t count = 7;
    CHECK(cedar_shared_kept_changes(shared, &count) == status && count == 0);
    CHECK(cedar_shared_decide(shared, &request, &decision, &text) == status && text.written == 0);
    CHECK(decision.allow == 0 && decision.refused == 0);
    CHECK(cedar_shared_answer(shared, lines, &text) == status && cedar_shared_answer_line(shared, lines, &text) == status);
    CHECK(cedar_shared_answer_with_entities(shared, lines, &text) == status);
    CHECK(cedar_shared_explain_line(shared, lines, CEDAR_LINE, 0, CEDAR_WORDS, &text) == status);
    CHECK(cedar_shared_explain_request(shared, &request, 0, CEDAR_WORDS, &text) == status);
    CHECK(cedar_shared_publish_entities(shared, files.entities, NULL, &text) == status);
    CHECK(cedar_shared_publish_changes(shared, bytes_of("{}"), NULL, &text) == status);
    CHECK(cedar_shared_with_changes(shared, bytes_of("{}"), &other, NULL, &text) == status && other == NULL);
    CHECK(text.written == 0 && strcmp(room, "####") == 0);
}

static void check_states(void) {
    cedar_shared *shared;
    CHECK(cedar_shared_new(NULL) == CEDAR_ARGUMENT);
    cedar_shared_free(NULL);
    cedar_shared_close(NULL);
    cedar_shared_retain(NULL);
    check_all(NULL, CEDAR_ARGUMENT);
    CHECK(cedar_shared_publish(NULL, &files, NULL, NULL) == CEDAR_ARGUMENT);
    CHECK(cedar_shared_new(&shared) == CEDAR_OK && shared);
    check_all(shared, CEDAR_NO_ENGINE);
    CHECK(cedar_shared_publish(shared, NULL, NULL, NULL) == CEDAR_ARGUMENT);
    CHECK(cedar_shared_publish(shared, &files, NULL, NULL) == CEDAR_OK && answers_are_right(shared));
    cedar_shared_close(shared);
    cedar_shared_close(shared);
    check_all(shared, CEDAR_CLOSED);
    CHECK(cedar_shared_publish(shared, &files, NULL, NULL) == CEDAR_CLOSED);
    check_all(shared, CEDAR_CLOSED);
    cedar_shared_free(shared);
}

/* Wrong arguments change nothing: among them bytes and buffers with a length and no address. */
static void check_arguments(cedar_shared *shared) {
    cedar_bytes lost = {NULL, 5};
    cedar_buffer no_room = {NULL, 5, 9};
    cedar_request request = asked("write");
    cedar_decision decision = {sizeof decision + 1, 7, 7};
    cedar_refusal refusal = {.size = sizeof refusal - 1};
    cedar_files other = files;
    cedar_shared *made = NULL;
    other.links = lost;
    CHECK(cedar_shared_publish(shared, &other, NULL, NULL) == CEDAR_ARGUMENT);
    CHECK(cedar_shared_publish(shared, &files, &refusal, NULL) == CEDAR_ARGUMENT);
    CHECK(cedar_shared_publish_entities(shared, lost, NULL, NULL) == CEDAR_ARGUMENT);
    CHECK(cedar_shared_publish_entities(shared, files.entities, &refusal, NULL) == CEDAR_ARGUMENT);
    CHECK(cedar_shared_publish_changes(shared, lost, NULL, NULL) == CEDAR_ARGUMENT);
    CHECK(cedar_shared_publish_changes(shared, bytes_of("{}"), NULL, &no_room) == CEDAR_ARGUMENT && no_room.written == 0);
    CHECK(cedar_shared_with_changes(shared, bytes_of("{}"), NULL, NULL, NULL) == CEDAR_ARGUMENT);
    CHECK(cedar_shared_with_changes(shared, lost, &made, NULL, NULL) == CEDAR_ARGUMENT && !made);
    CHECK(cedar_shared_kept_changes(shared, NULL) == CEDAR_ARGUMENT);
    CHECK(cedar_shared_answer(shared, lost, NULL) == CEDAR_ARGUMENT && cedar_shared_answer_line(shared, lost, NULL) == CEDAR_ARGUMENT);
    CHECK(cedar_shared_answer_with_entities(shared, lines, &no_room) == CEDAR_ARGUMENT);
    CHECK(cedar_shared_decide(shared, &request, &decision, NULL) == CEDAR_ARGUMENT);
    CHECK(cedar_shared_decide(shared, &request, NULL, NULL) == CEDAR_ARGUMENT);
    decision = (cedar_decision){sizeof decision, 7, 7};
    request.resource_id = lost;
    CHECK(cedar_shared_decide(shared, &request, &decision, NULL) == CEDAR_ARGUMENT && decision.allow == 0);
    CHECK(cedar_shared_explain_request(shared, &request, 0, CEDAR_WORDS, NULL) == CEDAR_ARGUMENT);
    CHECK(answers_are_right(shared));
}

/* What is refused has its words, also of entities and of changes: the engine keeps the schema. */
static void check_words(cedar_shared *shared) {
    char room[4096];
    cedar_buffer words = {room, sizeof room, 0};
    cedar_refusal refusal = {.size = sizeof refusal, .wants = CEDAR_WANTS_WORDS};
    cedar_files broken = {sizeof broken, files.schema, {NULL, 0}, {NULL, 0}, bytes_of("[{\"uid\":{\"type\":\"Ghost\",\"id\":\"g\"}}]"), 0, 0};
    cedar_bytes changes = bytes_of("{\"upsert\":[{\"uid\":{\"type\":\"Ghost\",\"id\":\"g\"}}]}");
    cedar_shared *other;
    CHECK(cedar_shared_publish_entities(shared, broken.entities, &refusal, NULL) == CEDAR_REFUSED && refusal.file == CEDAR_ENTITIES);
    CHECK(cedar_explain(&broken, CEDAR_WORDS, &words) == CEDAR_OK && has(&words, refusal.words) && words.written > 20);
    CHECK(refusal.number == 503 && refusal.text.length == strlen("{\"file\":\"entities\",\"refused\":503}\n"));
    cedar_refusal_free(&refusal);
    for (int i = 0; i < 2; i++) {
        uint32_t status = i ? cedar_shared_publish_changes(shared, changes, &refusal, NULL)
                            : cedar_shared_with_changes(shared, changes, &other, &refusal, NULL);
        CHECK(status == CEDAR_REFUSED && refusal.number == 503 && (i || !other));
        CHECK(cedar_explain_changes(files.schema, changes, 503, CEDAR_WORDS, &words) == CEDAR_OK && has(&words, refusal.words));
        cedar_refusal_free(&refusal);
    }
    refusal.wants = 0;
    CHECK(cedar_shared_publish_entities(shared, broken.entities, &refusal, NULL) == CEDAR_REFUSED && refusal.number == 503 && !refusal.words.at);
    broken.policies = bytes_of("permit(");
    refusal.wants = CEDAR_WANTS_WORDS;
    CHECK(cedar_shared_publish(shared, &broken, &refusal, NULL) == CEDAR_REFUSED && refusal.number == 201 && refusal.words.length > 20);
    cedar_refusal_free(&refusal);
    cedar_request fly = asked("fly");
    cedar_decision decision = {sizeof decision, 7, 7};
    CHECK(cedar_shared_decide(shared, &fly, &decision, NULL) == CEDAR_NO_REQUEST && decision.refused == 510 && decision.allow == 0);
    CHECK(cedar_shared_explain_request(shared, &fly, 510, CEDAR_WORDS, &words) == CEDAR_OK && words.written > 20);
    CHECK(answers_are_right(shared));
}

/* Whether what is published to an engine of the language of Cedar 4 is explained by its schema: the words of the entities name the entry. */
static void check_language(const char *folder) {
    static const char WHERE[] = "error[506]: an attribute is not declared\n --> ";
    char path[4096];
    snprintf(path, sizeof path, "%s/../../tests/bindings/language_4", folder);
    cedar_files four = files_of(path);
    cedar_bytes broken = content(path, "refused_changes.json");
    cedar_bytes entries = {(const char *)broken.at + strlen("{\"upsert\":"), broken.length - strlen("{\"upsert\":}\n")};
    cedar_refusal refusal = {.size = sizeof refusal, .wants = CEDAR_WANTS_WORDS};
    cedar_shared *shared;
    CHECK(cedar_shared_new(&shared) == CEDAR_OK && cedar_shared_publish(shared, &four, &refusal, NULL) == CEDAR_REFUSED);
    CHECK(refusal.file == CEDAR_SCHEMA && refusal.number == 303 && refusal.words.length > 20);
    cedar_refusal_free(&refusal);
    four.settings = CEDAR_LANGUAGE_4;
    CHECK(cedar_shared_publish(shared, &four, &refusal, NULL) == CEDAR_OK);
    for (int i = 0; i < 2; i++) {
        uint32_t status = i ? cedar_shared_publish_changes(shared, broken, &refusal, NULL)
                            : cedar_shared_publish_entities(shared, entries, &refusal, NULL);
        CHECK(status == CEDAR_REFUSED && refusal.number == 506 && refusal.file == CEDAR_ENTITIES && refusal.words.length > strlen(WHERE));
        CHECK(refusal.words.at && memcmp(refusal.words.at, WHERE, strlen(WHERE)) == 0 && strstr(refusal.words.at, "User::\"bob\""));
        cedar_refusal_free(&refusal);
    }
    cedar_shared_free(shared);
    free_files(&four);
    free((void *)broken.at);
}

/* Whether a request of ann is allowed; -1 where nothing was decided. */
static int is_allowed(cedar_shared *shared, const char *action) {
    cedar_request request = asked(action);
    cedar_decision decision = {sizeof decision, 7, 7};
    return cedar_shared_decide(shared, &request, &decision, NULL) == CEDAR_OK ? (int)decision.allow : -1;
}

/* Engines over changes, and copies of an address that each own the engine, outlive the first one. */
static void check_owners(void) {
    cedar_shared *shared, *copy, *other, *third;
    CHECK(cedar_shared_new(&shared) == CEDAR_OK && cedar_shared_publish(shared, &files, NULL, NULL) == CEDAR_OK);
    copy = shared;
    cedar_shared_retain(copy);
    CHECK(cedar_shared_with_changes(shared, bytes_of("{\"remove\":[{\"type\":\"User\",\"id\":\"ann\"}]}"), &other, NULL, NULL) == CEDAR_OK);
    CHECK(cedar_shared_with_changes(other, bytes_of("{}"), &third, NULL, NULL) == CEDAR_OK);
    cedar_shared_free(shared);
    CHECK(is_allowed(copy, "write") == 1 && answers_are_right(copy));
    int before = is_allowed(other, "write");
    CHECK(cedar_shared_publish_changes(other, bytes_of("{}"), NULL, NULL) == CEDAR_OK);
    cedar_shared_free(copy);
    CHECK(is_allowed(other, "write") == before && is_allowed(third, "write") == before);
    CHECK(cedar_shared_publish_entities(other, files.entities, NULL, NULL) == CEDAR_OK && answers_are_right(other));
    cedar_shared_free(other);
    CHECK(is_allowed(third, "write") == before);
    CHECK(cedar_shared_publish(third, &files, NULL, NULL) == CEDAR_OK && answers_are_right(third));
    cedar_shared_free(third);
}

/* Policies with this id, which permit where the number is even. */
static cedar_bytes policies_of(long number, char room[128]) {
    snprintf(room, 128, "@id(\"%ld\") %s(principal, action, resource);", number, number % 2 ? "forbid" : "permit");
    return bytes_of(room);
}

/* Whether a turn is right: what is answered and decided is that of a version that was current meanwhile. */
static int turn_is_right(long turn) {
    char room[256], line[] = "{\"principal\":\"User::\\\"ann\\\"\",\"action\":\"Action::\\\"write\\\"\",\"resource\":\"Notebook::\\\"plans\\\"\"}";
    cedar_buffer text = {room, sizeof room - 1, 0};
    cedar_request request = asked("write");
    cedar_decision decision = {sizeof decision, 7, 7};
    long first = done, answered = -1;
    uint32_t status = turn % 2 ? cedar_shared_answer_line(engine, bytes_of(line), &text)
                               : cedar_shared_decide(engine, &request, &decision, &text);
    long last = begun;
    room[text.written] = 0;
    const char *found = strstr(room, "[\"");
    answered = found ? atol(found + 2) : -1;
    int is_right = status == CEDAR_OK && first <= answered && answered <= last;
    is_right = is_right && (strstr(room, answered % 2 ? "deny" : "allow") != NULL) && (turn % 2 || decision.allow == (answered % 2 == 0));
    long before = done;
    int decided = is_allowed(engine, "write");
    return is_right && decided >= 0 && (before != begun || decided == (before % 2 == 0));
}

/* Whether the count of changes is that of a version: the publisher changes one entity of each, after its entities were published. */
static int count_is_right(void) {
    uint64_t count = 7;
    return cedar_shared_kept_changes(engine, &count) == CEDAR_OK && count <= 1;
}

/* ThreadSanitizer keeps a lock for each atomic, and who writes waits for as long as anyone reads. Threads that never pause would keep a
 * publisher, or who closes the engine, waiting for ever. */
static void pause_under_tools(void) {
#ifdef __SANITIZE_THREAD__
    nanosleep(&(struct timespec){0, 200000}, NULL);
#endif
}

static void *asks(void *none) {
    long turn = 0;
    do {
        *(turn_is_right(turn) && count_is_right() ? &right : &wrong) += 1;
        pause_under_tools();
    } while (turn++ == 0 || !is_over);
    return none;
}

/* Asks over changes of its own, while others publish and ask. */
static void *asks_over_changes(void *none) {
    while (!changed || !is_over) {
        cedar_shared *other;
        uint32_t status = cedar_shared_with_changes(engine, bytes_of("{\"remove\":[{\"type\":\"User\",\"id\":\"bob\"}]}"), &other, NULL, NULL);
        *(status == CEDAR_OK && is_allowed(other, "write") >= 0 ? &changed : &wrong) += 1;
        cedar_shared_free(other);
    }
    return none;
}

/* Publishes versions: policies, entities and changes in turn. */
static void *publishes(void *none) {
    for (long number = 1; number <= versions; number++) {
        char room[128];
        cedar_files next = files;
        next.policies = policies_of(number, room);
        begun = number;
        uint32_t status = cedar_shared_publish(engine, &next, NULL, NULL);
        done = number;
        status |= cedar_shared_publish_entities(engine, files.entities, NULL, NULL);
        status |= cedar_shared_publish_changes(engine, bytes_of("{\"upsert\":[{\"uid\":{\"type\":\"User\",\"id\":\"bob\"}}]}"), NULL, NULL);
        wrong += status != CEDAR_OK;
    }
    is_over = 1;
    return none;
}

/* Asks until the engine is closed, and then finds it closed. */
static void *asks_until_closed(void *none) {
    int decided;
    while ((decided = is_allowed(engine, "write")) >= 0) {
        right += decided == 1;
        pause_under_tools();
    }
    cedar_request request = asked("write");
    cedar_decision decision = {sizeof decision, 7, 7};
    wrong += cedar_shared_decide(engine, &request, &decision, NULL) != CEDAR_CLOSED;
    asking--;
    return none;
}

static void run(pthread_t *thread, void *(*work)(void *)) {
    if (pthread_create(thread, NULL, work, NULL)) {
        exit(9);
    }
}

static void check_threads(void) {
    pthread_t threads[THREADS + 2];
    char room[128];
    cedar_files first = files;
    first.policies = policies_of(0, room);
    CHECK(cedar_shared_new(&engine) == CEDAR_OK && cedar_shared_publish(engine, &first, NULL, NULL) == CEDAR_OK);
    for (int i = 0; i < THREADS + 2; i++) {
        run(&threads[i], i < THREADS ? asks : i == THREADS ? publishes : asks_over_changes);
    }
    for (int i = 0; i < THREADS + 2; i++) {
        pthread_join(threads[i], NULL);
    }
    printf("%ld turns, %ld wrong, %ld versions, %ld changes\n", (long)right, (long)wrong, (long)done, (long)changed);
    CHECK(wrong == 0 && right >= 2 * THREADS && done == versions && changed > 0);
    cedar_shared_free(engine);
}

/* Threads ask until the engine is closed. There may be more of them than the engine keeps handles. */
static void check_closing(void) {
    pthread_t *threads = calloc((size_t)closing, sizeof *threads);
    right = wrong = 0;
    asking = closing;
    if (!threads) {
        exit(9);
    }
    CHECK(cedar_shared_new(&engine) == CEDAR_OK && cedar_shared_publish(engine, &files, NULL, NULL) == CEDAR_OK);
    for (int i = 0; i < closing; i++) {
        run(&threads[i], asks_until_closed);
    }
    while (right < 10 * closing) {
        wrong += cedar_shared_publish_entities(engine, files.entities, NULL, NULL) != CEDAR_OK;
    }
    cedar_shared_close(engine);
    for (int i = 0; i < closing; i++) {
        pthread_join(threads[i], NULL);
    }
    CHECK(wrong == 0 && asking == 0);
    CHECK(cedar_shared_publish(engine, &files, NULL, NULL) == CEDAR_CLOSED);
    cedar_shared_free(engine);
    free(threads);
}

int main(int count, char **words) {
    if (count != 4) {
        return 9;
    }
    files = files_of(words[1]);
    lines = content(words[1], "requests.jsonl");
    answers = content(words[1], "answers.jsonl");
    versions = atol(words[2]);
    closing = atol(words[3]);
    cedar_shared *shared;
    check_states();
    CHECK(cedar_shared_new(&shared) == CEDAR_OK && cedar_shared_publish(shared, &files, NULL, NULL) == CEDAR_OK);
    check_arguments(shared);
    check_words(shared);
    cedar_shared_free(shared);
    check_language(words[1]);
    check_owners();
    check_threads();
    check_closing();
    free_files(&files);
    free((void *)lines.at);
    free((void *)answers.at);
    return counted();
}
