/* Refuses each growth of memory of each call in turn: memory FOLDER. It is linked with refusing.c.
 *
 * A call then ends with CEDAR_MEMORY, or as with ample memory. After it the same call, with ample memory, ends as usual. */
#include "files.h"

extern long granted_before_refusal; /* of refusing.c */
static cedar_files files, other_files;
static cedar_bytes lines, line, answers, answer, report, explained, all_changes, brought, brought_fault;
static cedar_engine engine, other;
static cedar_request request;
static char room[1 << 16];

static cedar_buffer text_buffer(void) { return (cedar_buffer){room, sizeof room, 0}; }

/* The calls. Each returns its status, and whether what it gave is right where the status is CEDAR_OK. */
typedef struct outcome {
    uint32_t status;
    int is_right;
} outcome;

static outcome makes(void) {
    cedar_engine made;
    uint32_t status = cedar_new(&made);
    int is_right = (status == CEDAR_OK) == (made.at != NULL);
    cedar_free(&made);
    return (outcome){status, is_right};
}

static outcome publishes(void) {
    uint32_t status = cedar_publish(&engine, &files, NULL, NULL);
    return (outcome){status, 1};
}

static outcome publishes_faults(void) {
    cedar_refusal refusal = {.size = sizeof refusal, .file = 0, .number = 0, .offset = 0};
    cedar_buffer text = text_buffer();
    uint32_t status = cedar_publish(&engine, &other_files, &refusal, &text);
    int is_right = status == CEDAR_FAULTS && text.written > 20;
    return (outcome){is_right ? CEDAR_OK : status, is_right || status == CEDAR_MEMORY};
}

static outcome publishes_entities(void) { return (outcome){cedar_publish_entities(&engine, files.entities, NULL, NULL), 1}; }

/* Entities that are no list are refused, with any schema. */
static outcome publishes_refused_entities(void) {
    cedar_refusal refusal = {.size = sizeof refusal, .file = 0, .number = 0, .offset = 0};
    cedar_buffer text = text_buffer();
    uint32_t status = cedar_publish_entities(&engine, bytes_of("{}"), &refusal, &text);
    int is_right = status == CEDAR_REFUSED && refusal.file == CEDAR_ENTITIES && refusal.number == 502
        && has(&text, bytes_of("{\"file\":\"entities\",\"refused\":502}\n"));
    return (outcome){is_right ? CEDAR_OK : status, is_right || (refusal.file == 0 && refusal.number == 0 && text.written == 0)};
}

/* Changes that change nothing, with any schema. */
static outcome publishes_changes(void) {
    const char *changes = "{\"upsert\":[],\"remove\":[{\"type\":\"Ghost\",\"id\":\"g\"}]}";
    return (outcome){cedar_publish_changes(&engine, bytes_of(changes), NULL, NULL), 1};
}

/* All entities as changes of the same entities. */
static outcome publishes_all_as_changes(void) { return (outcome){cedar_publish_changes(&engine, all_changes, NULL, NULL), 1}; }

/* Changes that are no object are refused, with any schema. */
static outcome publishes_refused_changes(void) {
    cedar_refusal refusal = {.size = sizeof refusal, .file = 0, .number = 0, .offset = 0};
    cedar_buffer text = text_buffer();
    uint32_t status = cedar_publish_changes(&engine, bytes_of("[]"), &refusal, &text);
    int is_right = status == CEDAR_REFUSED && refusal.file == CEDAR_ENTITIES && refusal.number == 502
        && has(&text, bytes_of("{\"file\":\"entities\",\"refused\":502}\n"));
    return (outcome){is_right ? CEDAR_OK : status, is_right || (refusal.file == 0 && refusal.number == 0 && text.written == 0)};
}

/* The words for refused changes are whole, or none. */
static outcome explains_changes(void) {
    const char *changes = "{\"upsert\":[{\"uid\":{\"type\":\"Ghost\",\"id\":\"g\"}}]}";
    const char *begin = "error[503]: an entity has a type that the schema does not declare\n --> changes.json: upsert entry 0 (from 0), Ghost";
    cedar_buffer text = text_buffer();
    uint32_t status = cedar_explain_changes(files.schema, bytes_of(changes), 503, CEDAR_WORDS, &text);
    int is_right = status == CEDAR_OK ? text.written > strlen(begin) && memcmp(room, begin, strlen(begin)) == 0 : text.written == 0;
    return (outcome){status, is_right};
}

static outcome validates(void) {
    cedar_buffer text = text_buffer();
    uint32_t status = cedar_validate(&files, &text);
    return (outcome){status, status != CEDAR_OK || has(&text, report)};
}

/* A part of a report moves the place on where it is written, and otherwise leaves it as it is. */
static outcome validates_part(void) {
    cedar_report_place place = {.size = sizeof place, .lines = CEDAR_ALL_LINES};
    cedar_refusal refusal = {.size = sizeof refusal, .wants = CEDAR_WANTS_WORDS};
    cedar_buffer text = text_buffer();
    uint32_t status = cedar_validate_part(&files, &place, &refusal, &text);
    int is_right = status == CEDAR_OK ? has(&text, report) && place.policy > 0 : place.policy == 0 && !refusal.words.at;
    return (outcome){status, is_right};
}

/* A part that is refused has all of its words, or the status says that memory ran out, and there are none. */
static outcome validates_refused_part(void) {
    cedar_report_place place = {.size = sizeof place, .lines = CEDAR_ALL_LINES};
    cedar_refusal refusal = {.size = sizeof refusal, .wants = CEDAR_WANTS_WORDS};
    cedar_buffer text = text_buffer();
    cedar_files broken = files;
    broken.policies = bytes_of("permit(");
    uint32_t status = cedar_validate_part(&broken, &place, &refusal, &text);
    int is_refused = status == CEDAR_REFUSED && refusal.number == 201 && refusal.words.length > 40;
    int is_right = (is_refused || (status == CEDAR_MEMORY && !refusal.words.at)) && place.policy == 0;
    cedar_refusal_free(&refusal);
    return (outcome){is_refused ? CEDAR_OK : status, is_right};
}

/* Nothing was changed since entities were published. */
static outcome counts_changes(void) {
    uint64_t count = 7;
    uint32_t status = cedar_kept_changes(&engine, &count);
    return (outcome){status, count == 0};
}

/* An explanation has the same words as with ample memory, or none. */
static outcome explains(void) {
    cedar_buffer text = text_buffer();
    uint32_t status = cedar_explain(&other_files, CEDAR_WORDS, &text);
    return (outcome){status, status == CEDAR_OK ? has(&text, explained) : text.written == 0};
}

static outcome shares(void) { return (outcome){cedar_share(&engine, &other), 1}; }

static outcome answers_lines(void) {
    cedar_buffer text = text_buffer();
    uint32_t status = cedar_answer(&engine, lines, &text);
    return (outcome){status, status != CEDAR_OK || has(&text, answers)};
}

/* A line that brings all entities has the answer that it has without them. */
static outcome answers_with_entities(void) {
    cedar_buffer text = text_buffer();
    uint32_t status = cedar_answer_with_entities(&engine, brought, &text);
    return (outcome){status, status != CEDAR_OK || has(&text, (cedar_bytes){answer.at, answer.length + 1})};
}

/* Entities that are no list are refused, with any schema. */
static outcome answers_with_refused_entities(void) {
    cedar_buffer text = text_buffer();
    uint32_t status = cedar_answer_with_entities(&engine, brought_fault, &text);
    return (outcome){status, status != CEDAR_OK || has(&text, bytes_of("{\"refused\":502}\n"))};
}

static outcome answers_line(void) {
    cedar_buffer text = text_buffer();
    uint32_t status = cedar_answer_line(&engine, line, &text);
    return (outcome){status, status != CEDAR_OK || has(&text, answer)};
}

static outcome decides(void) {
    cedar_buffer text = text_buffer();
    cedar_decision decision = {sizeof decision, 7, 7};
    uint32_t status = cedar_decide(&engine, &request, &decision, &text);
    int is_right = status == CEDAR_NO_REQUEST && decision.refused == 503 && has(&text, bytes_of("{\"refused\":503}"));
    return (outcome){is_right ? CEDAR_OK : status, is_right || decision.allow == 0};
}

static outcome decides_alone(void) {
    cedar_decision decision = {sizeof decision, 7, 7};
    uint32_t status = cedar_decide(&engine, &request, &decision, NULL);
    int is_right = status == CEDAR_NO_REQUEST && decision.refused == 503;
    return (outcome){is_right ? CEDAR_OK : status, is_right || decision.allow == 0};
}

/* Makes a call again and again, until no request for memory is refused any more. */
static void try_each(const char *name, outcome (*call)(void)) {
    long refused = 0;
    for (long number = 0;; number++) {
        granted_before_refusal = number;
        outcome ended = call();
        int is_over = granted_before_refusal >= 0;
        granted_before_refusal = -1;
        int is_right = ended.is_right && (ended.status == CEDAR_OK || (ended.status == CEDAR_MEMORY && !is_over));
        refused += ended.status == CEDAR_MEMORY;
        outcome after = answers_lines(), again = call();
        is_right = is_right && after.status == CEDAR_OK && after.is_right && again.status == CEDAR_OK && again.is_right;
        if (!is_right) {
            printf("%s: request %ld refused: status %u, then %u and %u\n", name, number, ended.status, after.status, again.status);
        }
        passed += is_right;
        failed += !is_right;
        if (is_over) {
            printf("%s: %ld requests for memory, %ld end with CEDAR_MEMORY\n", name, number, refused);
            return;
        }
    }
}

/* Explains files with ample memory, and then with each request for memory refused in turn. The words begin like this. */
static void try_explanation(const char *begin, cedar_files broken) {
    static char words[1 << 14];
    cedar_buffer text = {words, sizeof words, 0};
    cedar_files kept = other_files;
    other_files = broken;
    int is_right = cedar_explain(&other_files, CEDAR_WORDS, &text) == CEDAR_OK && text.written > strlen(begin)
        && memcmp(words, begin, strlen(begin)) == 0;
    passed += is_right;
    failed += !is_right;
    if (!is_right) {
        printf("explain: not %s but %.*s\n", begin, (int)text.written, words);
    }
    explained = (cedar_bytes){words, text.written};
    try_each(begin, explains);
    other_files = kept;
}

/* Files of each kind that are refused, and policies with faults. */
static void try_explanations(void) {
    cedar_files broken = other_files;
    try_explanation("error[606]", broken);
    broken.policies = bytes_of("permit(principal, action, resource) when { (true };");
    try_explanation("error[201]", broken);
    broken.policies = bytes_of("@id(\"a\") permit(principal, action, resource); @id(\"a\") permit(principal, action, resource);");
    try_explanation("error[204]", broken);
    broken.policies = bytes_of("permit(principal, action, resource) when { \"a\n\" == \"b };");
    try_explanation("error[102]", broken);
    broken.policies = bytes_of("permit(principal == ?principal, action, resource) when { 1 };");
    broken.links = bytes_of("[{\"template_id\": \"policy0\", \"link_id\": \"a\", \"args\": {\"?principal\": \"Ghost::\\\"g\\\"\"}}]");
    try_explanation("error[601]", broken);
    broken.links = bytes_of("[{\"template_id\": \"policy0\", \"link_id\": \"a\", \"args\": {}}]");
    try_explanation("error[211]", broken);
    broken.links = bytes_of("[{\"template_id\": \"policy0\", \"link_id\": \"a\"}]");
    try_explanation("error[502]", broken);
    broken.policies = bytes_of("permit(principal, action, resource);");
    broken.links = (cedar_bytes){NULL, 0};
    broken.entities = bytes_of("[{\"uid\": {\"type\": \"Ghost\", \"id\": \"g\"}}]");
    try_explanation("error[503]", broken);
    broken.schema = bytes_of("{\"\": {\"entityTypes\": {\"User\": {\"memberOfTypes\": [\"User\"]}}, \"actions\": {}}}");
    broken.entities = bytes_of("[{\"uid\": {\"type\": \"User\", \"id\": \"a\"}}, {\"uid\": {\"type\": \"User\", \"id\": \"a\"}}]");
    try_explanation("error[401]", broken);
    broken.entities = bytes_of("[{\"uid\": {\"type\": \"User\", \"id\": \"a\"}, \"parents\": [{\"type\": \"User\", \"id\": \"a\"}]}]");
    try_explanation("error[402]", broken);
    broken.entities = bytes_of("[,]");
    try_explanation("error[501]", broken);
    broken.schema = bytes_of("{\"\": {\"entityTypes\": {}, \"action\": {}}}");
    try_explanation("error[302]", broken);
}

/* A shared engine: it is made, published to, asked, changed, and freed. */
static outcome shares_between_threads(void) {
    cedar_shared *shared = NULL, *changed = NULL;
    cedar_buffer text = text_buffer();
    uint32_t status = cedar_shared_new(&shared);
    status = status == CEDAR_OK ? cedar_shared_publish(shared, &files, NULL, NULL) : status;
    status = status == CEDAR_OK ? cedar_shared_answer_line(shared, line, &text) : status;
    status = status == CEDAR_OK ? cedar_shared_publish_changes(shared, bytes_of("{}"), NULL, NULL) : status;
    status = status == CEDAR_OK ? cedar_shared_publish_entities(shared, files.entities, NULL, NULL) : status;
    status = status == CEDAR_OK ? cedar_shared_with_changes(shared, bytes_of("{}"), &changed, NULL, NULL) : status;
    status = status == CEDAR_OK ? cedar_shared_answer_line(changed, line, &text) : status;
    int is_right = status == CEDAR_MEMORY || (status == CEDAR_OK && has(&text, answer));
    cedar_shared_free(changed);
    cedar_shared_free(shared);
    return (outcome){status, is_right};
}

/* What is refused has all of its words, or the status says that memory ran out, and there are none. */
static outcome refuses_with_words(void) {
    cedar_refusal refusal = {.size = sizeof refusal, .wants = CEDAR_WANTS_WORDS};
    cedar_files broken = files;
    broken.policies = bytes_of("permit(");
    cedar_shared *shared = NULL;
    uint32_t status = cedar_shared_new(&shared);
    status = status == CEDAR_OK ? cedar_shared_publish(shared, &broken, &refusal, NULL) : status;
    int is_refused = status == CEDAR_REFUSED && refusal.number == 201 && refusal.line == 1 && refusal.words.length > 40;
    int is_right = is_refused || (status == CEDAR_MEMORY && !refusal.words.at && !refusal.text.at);
    cedar_refusal_free(&refusal);
    cedar_shared_free(shared);
    return (outcome){is_refused ? CEDAR_OK : status, is_right};
}

/* Words of a request that is refused, whatever the schema is. */
static outcome explains_requests(void) {
    cedar_buffer text = text_buffer();
    cedar_request odd = asked("write");
    odd.context = bytes_of("[");
    uint32_t status = cedar_explain_request(&engine, &odd, 501, CEDAR_WORDS, &text);
    status = status == CEDAR_OK && text.written > 20 ? cedar_explain_line(&engine, brought_fault, CEDAR_LINE_WITH_ENTITIES, 0, CEDAR_JSON, &text) : status;
    return (outcome){status, status == CEDAR_OK ? text.written > 20 : status == CEDAR_MEMORY && text.written == 0};
}

static cedar_bytes first_line(cedar_bytes text) {
    const char *feed = memchr(text.at, '\n', text.length);
    return (cedar_bytes){text.at, (size_t)(feed - (const char *)text.at)};
}

int main(int count, char **words) {
    if (count != 2) {
        return 9;
    }
    files = other_files = files_of(words[1]);
    other_files.policies = bytes_of("permit(principal, action, resource) when { 1 };");
    other_files.links = (cedar_bytes){NULL, 0};
    lines = content(words[1], "requests.jsonl");
    answers = content(words[1], "answers.jsonl");
    report = content(words[1], "report.jsonl");
    line = first_line(lines);
    answer = first_line(answers);
    all_changes = upserts(files.entities);
    brought = bringing(line, files.entities);
    brought_fault = bringing(line, bytes_of("{}"));
    /* An action that is declared by none of the examples would be refused 510, whatever the types are. */
    request = asked("write");
    request.principal_type = bytes_of("Ghost");
    if (cedar_new(&engine) || cedar_new(&other) || cedar_publish(&engine, &files, NULL, NULL)) {
        return 9;
    }
    try_each("new", makes);
    try_each("publish", publishes);
    try_each("publish with faults", publishes_faults);
    try_each("publish entities", publishes_entities);
    try_each("publish entities that are refused", publishes_refused_entities);
    try_each("count changes", counts_changes);
    try_each("publish changes", publishes_changes);
    try_each("publish all entities as changes", publishes_all_as_changes);
    try_each("publish changes that are refused", publishes_refused_changes);
    try_each("explain changes", explains_changes);
    try_each("validate", validates);
    try_each("validate a part", validates_part);
    try_each("validate a part that is refused", validates_refused_part);
    try_explanations();
    try_each("share", shares);
    try_each("a shared engine", shares_between_threads);
    try_each("a refusal with words", refuses_with_words);
    try_each("explain requests", explains_requests);
    try_each("answer", answers_lines);
    try_each("answer a line that brings all entities", answers_with_entities);
    try_each("answer a line with entities that are refused", answers_with_refused_entities);
    try_each("answer a line", answers_line);
    if (decides_alone().status == CEDAR_OK) {
        try_each("decide with a text", decides);
        try_each("decide", decides_alone);
    }
    cedar_free(&engine);
    cedar_free(&other);
    free_files(&files);
    free((void *)lines.at);
    free((void *)answers.at);
    free((void *)report.at);
    free((void *)all_changes.at);
    free((void *)brought.at);
    free((void *)brought_fault.at);
    return counted();
}
