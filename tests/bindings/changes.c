/* Changes of entities, in C: changes. */
#include "files.h"

#include "changes.h"

#define ALLOWED "{\"decision\":\"allow\",\"determining\":[\"staff\"],\"erring\":[]}"
#define DENIED "{\"decision\":\"deny\",\"determining\":[],\"erring\":[]}"

static cedar_files files;

static cedar_engine published(void) {
    cedar_engine engine;
    files = (cedar_files){sizeof files, bytes_of(CHANGES_SCHEMA), bytes_of(CHANGES_POLICIES), {NULL, 0}, bytes_of(CHANGES_ENTITIES), 0, 0};
    CHECK(cedar_new(&engine) == CEDAR_OK && cedar_publish(&engine, &files, NULL, NULL) == CEDAR_OK);
    return engine;
}

static uint32_t changed(cedar_engine *engine, const char *text) { return cedar_publish_changes(engine, bytes_of(text), NULL, NULL); }

/* Whether this is answered where somebody wants to view. */
static int is_answered(cedar_engine *engine, const char *who, const char *answer) {
    char room[256];
    cedar_buffer text = {room, sizeof room, 0};
    cedar_decision decision = {sizeof decision, 7, 7};
    cedar_request request = {sizeof request, bytes_of("User"), bytes_of(who), bytes_of("Action"), bytes_of("view"), bytes_of("Group"),
                             bytes_of("staff"), {NULL, 0}};
    int is_allowed = strcmp(answer, ALLOWED) == 0;
    return cedar_decide(engine, &request, &decision, &text) == CEDAR_OK && (int)decision.allow == is_allowed && has(&text, bytes_of(answer));
}

/* Null handles, empty ones, and other sizes of structs. */
static void check_arguments(void) {
    cedar_engine none = {NULL}, engine;
    cedar_bytes changes = bytes_of(UPSERT(ANN));
    cedar_refusal refusal = {.size = sizeof refusal, .file = 7, .number = 7, .offset = 7}, other = {.size = sizeof other - 1, .file = 7, .number = 7, .offset = 7};
    char room[] = "####";
    cedar_buffer text = {room, 4, 9};
    CHECK(cedar_publish_changes(NULL, changes, NULL, NULL) == CEDAR_ARGUMENT);
    CHECK(cedar_publish_changes(&none, changes, &refusal, &text) == CEDAR_ARGUMENT && refusal.file == 7 && text.written == 0);
    CHECK(cedar_new(&engine) == CEDAR_OK);
    CHECK(cedar_publish_changes(&engine, changes, &other, NULL) == CEDAR_ARGUMENT && other.file == 7);
    CHECK(cedar_publish_changes(&engine, changes, &refusal, &text) == CEDAR_NO_ENGINE && text.written == 0);
    CHECK(refusal.file == 0 && refusal.number == 0 && refusal.offset == CEDAR_NO_OFFSET && strcmp(room, "####") == 0);
    CHECK(changed(&engine, "[]") == CEDAR_NO_ENGINE);
    CHECK(cedar_explain_changes(bytes_of(CHANGES_SCHEMA), changes, 502, 2, &text) == CEDAR_ARGUMENT && text.written == 0);
    cedar_free(&engine);
}

/* The next decision sees an upsert and a removal. A handle that was shared before them keeps its answers. */
static void check_changes(void) {
    cedar_engine engine = published(), before;
    cedar_refusal refusal = {.size = sizeof refusal, .file = 7, .number = 7, .offset = 7};
    CHECK(cedar_new(&before) == CEDAR_OK && cedar_share(&engine, &before) == CEDAR_OK);
    CHECK(is_answered(&engine, "ann", DENIED) && is_answered(&engine, "bob", ALLOWED));
    CHECK(cedar_publish_changes(&engine, bytes_of(UPSERT(ANN)), &refusal, NULL) == CEDAR_OK);
    CHECK(refusal.file == 0 && refusal.number == 0 && refusal.offset == CEDAR_NO_OFFSET);
    CHECK(is_answered(&engine, "ann", ALLOWED) && is_answered(&before, "ann", DENIED));
    CHECK(changed(&engine, REMOVE(UID("User", "ann"))) == CEDAR_OK && is_answered(&engine, "ann", DENIED));
    CHECK(is_answered(&engine, "bob", ALLOWED));
    /* The team leaves the staff, and all of its members with it. */
    CHECK(changed(&engine, UPSERT(ENTRY("Group", "team", "{}", ""))) == CEDAR_OK && is_answered(&engine, "bob", DENIED));
    CHECK(is_answered(&before, "bob", ALLOWED));
    CHECK(changed(&engine, UPSERT(ENTRY("Group", "team", "{}", UID("Group", "staff")))) == CEDAR_OK && is_answered(&engine, "bob", ALLOWED));
    CHECK(changed(&engine, REMOVE(UID("Group", "team"))) == CEDAR_OK && is_answered(&engine, "bob", DENIED));
    CHECK(changed(&engine, REMOVE(UID("User", "nobody") "," UID("Ghost", "g"))) == CEDAR_OK && is_answered(&engine, "bob", DENIED));
    CHECK(changed(&engine, "{}") == CEDAR_OK && is_answered(&before, "bob", ALLOWED));
    cedar_free(&engine);
    CHECK(is_answered(&before, "bob", ALLOWED) && changed(&before, UPSERT(ANN)) == CEDAR_OK && is_answered(&before, "ann", ALLOWED));
    /* All entities at once replace what was changed. */
    CHECK(cedar_publish_entities(&before, files.entities, NULL, NULL) == CEDAR_OK && is_answered(&before, "ann", DENIED));
    cedar_free(&before);
}

/* Whether changes are refused with this number, with any room for the line, and have words. */
static int are_refused(cedar_engine *engine, const char *changes, unsigned number) {
    cedar_refusal refusal = {.size = sizeof refusal, .file = 7, .number = 7, .offset = 7};
    char room[64], line[64], begin[32], said[2048];
    cedar_buffer text = {room, sizeof room, 0}, words = {said, sizeof said, 0};
    snprintf(line, sizeof line, "{\"file\":\"entities\",\"refused\":%u}\n", number);
    snprintf(begin, sizeof begin, "error[%u]: ", number);
    int is_right = cedar_publish_changes(engine, bytes_of(changes), &refusal, &text) == CEDAR_REFUSED && has(&text, bytes_of(line));
    is_right = is_right && refusal.file == CEDAR_ENTITIES && refusal.number == number && refusal.offset == CEDAR_NO_OFFSET;
    is_right = is_right && changed(engine, changes) == CEDAR_REFUSED;
    for (text.room = 0; text.room < strlen(line); text.room++) {
        memset(room, '#', sizeof room);
        is_right = is_right && cedar_publish_changes(engine, bytes_of(changes), NULL, &text) == CEDAR_REFUSED && text.written == strlen(line);
        for (size_t i = 0; i < sizeof room; i++) {
            is_right = is_right && room[i] == '#';
        }
    }
    is_right = is_right && cedar_explain_changes(files.schema, bytes_of(changes), number, CEDAR_WORDS, &words) == CEDAR_OK;
    return is_right && words.written > strlen(begin) && memcmp(said, begin, strlen(begin)) == 0;
}

/* What is refused leaves all as before. */
static void check_refusals(void) {
    cedar_engine engine = published(), other;
    CHECK(cedar_new(&other) == CEDAR_OK && changed(&engine, UPSERT(ANN)) == CEDAR_OK && cedar_share(&engine, &other) == CEDAR_OK);
    for (size_t i = 0; i < sizeof REFUSED_CHANGES / sizeof *REFUSED_CHANGES; i++) {
        int is_right = are_refused(&engine, REFUSED_CHANGES[i].text, REFUSED_CHANGES[i].number);
        if (!is_right) {
            printf("%s\n", REFUSED_CHANGES[i].text);
        }
        CHECK(is_right && is_answered(&engine, "ann", ALLOWED) && is_answered(&engine, "bob", ALLOWED) && is_answered(&other, "ann", ALLOWED));
    }
    cedar_free(&engine);
    cedar_free(&other);
}

/* The words name the entry and the attribute. Changes do not get every number. */
static void check_words(void) {
    char room[1024];
    cedar_buffer text = {room, sizeof room, 0}, none = {NULL, 0, 9};
    const char *wanted =
        "error[506]: an attribute is not declared\n --> changes.json: upsert entry 1 (from 0), User::\"ann\"\n"
        "   = attrs.agee: `User` has age\n   = hint: did you mean `age`?\n";
    cedar_bytes changes = bytes_of(UPSERT(ENTRY("Group", "g", "{}", "") "," ENTRY("User", "ann", "{\"age\":1,\"agee\":2}", ""))), schema;
    schema = bytes_of(CHANGES_SCHEMA);
    CHECK(cedar_explain_changes(schema, changes, 506, CEDAR_WORDS, &text) == CEDAR_OK && has(&text, bytes_of(wanted)));
    CHECK(cedar_explain_changes(schema, changes, 506, CEDAR_WORDS, NULL) == CEDAR_ROOM);
    CHECK(cedar_explain_changes(schema, changes, 506, CEDAR_WORDS, &none) == CEDAR_ROOM && none.written == strlen(wanted));
    CHECK(cedar_explain_changes(schema, changes, 506, CEDAR_JSON, &text) == CEDAR_OK && room[0] == '{');
    CHECK(cedar_explain_changes(schema, changes, 7, CEDAR_WORDS, &text) == CEDAR_OK && text.written == 0);
    CHECK(cedar_explain_changes(schema, changes, 70000, CEDAR_WORDS, &text) == CEDAR_OK && text.written == 0);
    /* A schema that cannot be read gives no entry, but the reason. */
    CHECK(cedar_explain_changes(bytes_of("{"), changes, 506, CEDAR_WORDS, &text) == CEDAR_OK && text.written > 20);
}

/* A thousand changes one after another: each adds a user or removes the one before the last. */
static void check_many(void) {
    cedar_engine engine = published();
    int is_right = 1;
    for (int number = 0; number < 1000; number++) {
        char changes[256], who[16], last[16];
        snprintf(who, sizeof who, "u%d", number);
        snprintf(last, sizeof last, "u%d", number - 2);
        snprintf(changes, sizeof changes,
                 "{\"upsert\":[{\"uid\":{\"type\":\"User\",\"id\":\"%s\"},\"attrs\":{\"age\":%d},\"parents\":[{\"type\":\"Group\",\"id\":\"team\"}]}],"
                 "\"remove\":[{\"type\":\"User\",\"id\":\"%s\"}]}",
                 who, number, last);
        is_right = is_right && is_answered(&engine, who, DENIED) && changed(&engine, changes) == CEDAR_OK;
        is_right = is_right && is_answered(&engine, who, ALLOWED) && is_answered(&engine, last, DENIED);
    }
    CHECK(is_right && is_answered(&engine, "u998", ALLOWED) && is_answered(&engine, "bob", ALLOWED));
    cedar_free(&engine);
}

/* Changes of this count of users, as JSON that the caller frees: they are upserted, or removed. */
static char *changes_of(int count, int is_removal) {
    char *at = malloc((size_t)count * 100 + 32), *to = at;
    if (!at) {
        exit(9);
    }
    to += sprintf(to, is_removal ? "{\"remove\":[" : "{\"upsert\":[");
    for (int number = 0; number < count; number++) {
        const char *begin = number ? "," : "", *uid = "{\"type\":\"User\",\"id\":\"u";
        to += is_removal ? sprintf(to, "%s%s%d\"}", begin, uid, number)
                         : sprintf(to, "%s{\"uid\":%s%d\"},\"attrs\":{\"age\":1}}", begin, uid, number);
    }
    sprintf(to, "]}");
    return at;
}

/* Whether an engine keeps so many changes. */
static int is_kept(cedar_engine *engine, uint64_t wanted) {
    uint64_t count = 7;
    return cedar_kept_changes(engine, &count) == CEDAR_OK && count == wanted;
}

/* What is kept of changes is what docs/DATA.md says: one for each entity that they upserted, one for each entity of the file that they removed,
 * and of other removals at most as many more and 126. */
static void check_kept(void) {
    enum { MANY = 1000 };
    char *upserted = changes_of(MANY, 0), *removed = changes_of(MANY, 1);
    cedar_engine engine = published(), other;
    uint64_t count = 7;
    CHECK(is_kept(&engine, 0) && changed(&engine, "{}") == CEDAR_OK && is_kept(&engine, 0));
    CHECK(changed(&engine, UPSERT(ANN)) == CEDAR_OK && is_kept(&engine, 1) && changed(&engine, UPSERT(ANN)) == CEDAR_OK && is_kept(&engine, 1));
    CHECK(changed(&engine, REMOVE(UID("User", "bob"))) == CEDAR_OK && is_kept(&engine, 2));
    CHECK(changed(&engine, "[]") == CEDAR_REFUSED && is_kept(&engine, 2));
    CHECK(cedar_new(&other) == CEDAR_OK && cedar_share(&engine, &other) == CEDAR_OK);
    CHECK(changed(&engine, upserted) == CEDAR_OK && is_kept(&engine, MANY + 2) && is_kept(&other, 2));
    CHECK(changed(&engine, removed) == CEDAR_OK && cedar_kept_changes(&engine, &count) == CEDAR_OK && count >= 2 && count <= 2 * 2 + 126);
    CHECK(cedar_publish_entities(&engine, files.entities, NULL, NULL) == CEDAR_OK && is_kept(&engine, 0) && is_kept(&other, 2));
    CHECK(cedar_publish(&other, &files, NULL, NULL) == CEDAR_OK && is_kept(&other, 0));
    cedar_free(&engine);
    cedar_free(&other);
    free(upserted);
    free(removed);
}

/* Null handles, a null count, a handle to which nothing was published, and one that was freed. */
static void check_arguments_of_kept(void) {
    cedar_engine none = {NULL}, engine, copy;
    uint64_t count = 7;
    CHECK(cedar_kept_changes(NULL, &count) == CEDAR_ARGUMENT && count == 0 && cedar_kept_changes(NULL, NULL) == CEDAR_ARGUMENT);
    count = 7;
    CHECK(cedar_kept_changes(&none, &count) == CEDAR_ARGUMENT && count == 0);
    count = 7;
    CHECK(cedar_new(&engine) == CEDAR_OK && cedar_kept_changes(&engine, &count) == CEDAR_NO_ENGINE && count == 0);
    CHECK(cedar_kept_changes(&engine, NULL) == CEDAR_ARGUMENT);
    copy = engine;
    cedar_free(&engine);
    count = 7;
    CHECK(cedar_kept_changes(&copy, &count) == CEDAR_ARGUMENT && count == 0);
}

/* A shared engine counts the changes of its current version. */
static void check_kept_of_shared(void) {
    cedar_shared *shared, *other;
    uint64_t count = 7;
    files = (cedar_files){sizeof files, bytes_of(CHANGES_SCHEMA), bytes_of(CHANGES_POLICIES), {NULL, 0}, bytes_of(CHANGES_ENTITIES), 0, 0};
    CHECK(cedar_shared_kept_changes(NULL, &count) == CEDAR_ARGUMENT && count == 0);
    count = 7;
    CHECK(cedar_shared_new(&shared) == CEDAR_OK && cedar_shared_kept_changes(shared, &count) == CEDAR_NO_ENGINE && count == 0);
    CHECK(cedar_shared_publish(shared, &files, NULL, NULL) == CEDAR_OK && cedar_shared_kept_changes(shared, NULL) == CEDAR_ARGUMENT);
    CHECK(cedar_shared_kept_changes(shared, &count) == CEDAR_OK && count == 0);
    CHECK(cedar_shared_publish_changes(shared, bytes_of(UPSERT(ANN)), NULL, NULL) == CEDAR_OK);
    CHECK(cedar_shared_kept_changes(shared, &count) == CEDAR_OK && count == 1);
    CHECK(cedar_shared_with_changes(shared, bytes_of(REMOVE(UID("User", "bob"))), &other, NULL, NULL) == CEDAR_OK);
    CHECK(cedar_shared_kept_changes(other, &count) == CEDAR_OK && count == 2);
    CHECK(cedar_shared_kept_changes(shared, &count) == CEDAR_OK && count == 1);
    CHECK(cedar_shared_publish_entities(shared, files.entities, NULL, NULL) == CEDAR_OK);
    CHECK(cedar_shared_kept_changes(shared, &count) == CEDAR_OK && count == 0);
    cedar_shared_free(other);
    cedar_shared_close(shared);
    count = 7;
    CHECK(cedar_shared_kept_changes(shared, &count) == CEDAR_CLOSED && count == 0);
    cedar_shared_free(shared);
}

/* Requests that bring their entities: a handle is shared, changed, asked and freed. No other request sees them. */
static void check_requests_with_entities(void) {
    cedar_engine engine = published();
    for (int number = 0; number < 10; number++) {
        cedar_engine once;
        CHECK(cedar_new(&once) == CEDAR_OK && cedar_share(&engine, &once) == CEDAR_OK);
        CHECK(changed(&once, UPSERT(ANN)) == CEDAR_OK && is_answered(&once, "ann", ALLOWED) && is_answered(&engine, "ann", DENIED));
        cedar_free(&once);
    }
    CHECK(is_answered(&engine, "ann", DENIED));
    cedar_free(&engine);
}

int main(void) {
    check_arguments();
    check_changes();
    check_refusals();
    check_words();
    check_many();
    check_kept();
    check_arguments_of_kept();
    check_kept_of_shared();
    check_requests_with_entities();
    return counted();
}
