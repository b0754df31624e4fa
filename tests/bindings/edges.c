/* The edges of the calls of cedar.h over one handle: edges FOLDER, where FOLDER is examples/notes of the repository. */
#include "files.h"

#include <sys/wait.h>
#include <unistd.h>

static cedar_files files;
static cedar_bytes lines, answers;

static int answers_are_right(cedar_engine *engine) {
    char room[4096];
    cedar_buffer text = {room, sizeof room, 0};
    return cedar_answer(engine, lines, &text) == CEDAR_OK && has(&text, answers);
}

static void check_null(void) {
    cedar_engine none = {NULL};
    cedar_engine engine;
    cedar_decision decision = {sizeof decision, 7, 7};
    cedar_request request = asked("write");
    cedar_refusal refusal = {.size = sizeof refusal, .file = 7, .number = 7, .offset = 7};
    CHECK(cedar_new(NULL) == CEDAR_ARGUMENT);
    cedar_free(NULL);
    cedar_free(&none);
    CHECK(cedar_publish(NULL, &files, NULL, NULL) == CEDAR_ARGUMENT);
    CHECK(cedar_publish(&none, &files, &refusal, NULL) == CEDAR_ARGUMENT);
    CHECK(cedar_publish_entities(NULL, files.entities, NULL, NULL) == CEDAR_ARGUMENT);
    CHECK(cedar_publish_entities(&none, files.entities, &refusal, NULL) == CEDAR_ARGUMENT && refusal.file == 7);
    CHECK(cedar_answer(&none, lines, NULL) == CEDAR_ARGUMENT);
    CHECK(cedar_answer(NULL, lines, NULL) == CEDAR_ARGUMENT);
    CHECK(cedar_answer_with_entities(&none, lines, NULL) == CEDAR_ARGUMENT);
    CHECK(cedar_answer_with_entities(NULL, lines, NULL) == CEDAR_ARGUMENT);
    CHECK(cedar_answer_line(&none, lines, NULL) == CEDAR_ARGUMENT);
    CHECK(cedar_decide(&none, &request, &decision, NULL) == CEDAR_ARGUMENT && decision.allow == 0 && decision.refused == 0);
    CHECK(cedar_new(&engine) == CEDAR_OK && engine.at);
    CHECK(cedar_share(&engine, &none) == CEDAR_ARGUMENT && cedar_share(&none, &engine) == CEDAR_ARGUMENT);
    CHECK(cedar_share(&engine, &engine) == CEDAR_ARGUMENT);
    CHECK(cedar_publish(&engine, NULL, NULL, NULL) == CEDAR_ARGUMENT);
    CHECK(cedar_validate(NULL, NULL) == CEDAR_ARGUMENT && cedar_explain(NULL, CEDAR_WORDS, NULL) == CEDAR_ARGUMENT);
    CHECK(cedar_decide(&engine, NULL, &decision, NULL) == CEDAR_ARGUMENT);
    CHECK(cedar_decide(&engine, &request, NULL, NULL) == CEDAR_ARGUMENT);
    cedar_free(&engine);
    CHECK(!engine.at);
    cedar_free(&engine);
}

static void check_empty_handle(void) {
    cedar_engine engine, other;
    cedar_refusal refusal = {.size = sizeof refusal, .file = 7, .number = 7, .offset = 7};
    char room[] = "####";
    cedar_buffer text = {room, 4, 9};
    cedar_decision decision = {sizeof decision, 7, 7};
    cedar_request request = asked("write");
    CHECK(cedar_new(&engine) == CEDAR_OK && cedar_new(&other) == CEDAR_OK);
    CHECK(cedar_answer(&engine, lines, NULL) == CEDAR_NO_ENGINE);
    CHECK(cedar_answer_with_entities(&engine, lines, &text) == CEDAR_NO_ENGINE && text.written == 0 && strcmp(room, "####") == 0);
    text.written = 9;
    CHECK(cedar_answer_line(&engine, lines, NULL) == CEDAR_NO_ENGINE);
    CHECK(cedar_decide(&engine, &request, &decision, NULL) == CEDAR_NO_ENGINE && decision.allow == 0);
    CHECK(cedar_share(&engine, &other) == CEDAR_NO_ENGINE);
    CHECK(cedar_publish_entities(&engine, files.entities, &refusal, &text) == CEDAR_NO_ENGINE && text.written == 0);
    CHECK(refusal.file == 0 && refusal.number == 0 && refusal.offset == CEDAR_NO_OFFSET && strcmp(room, "####") == 0);
    CHECK(cedar_publish_entities(&engine, bytes_of("{}"), NULL, NULL) == CEDAR_NO_ENGINE);
    cedar_free(&engine);
    cedar_free(&other);
}

/* Whether all calls over a handle return CEDAR_ARGUMENT. */
static void check_freed(cedar_engine *copy, cedar_engine *other) {
    cedar_decision decision = {sizeof decision, 7, 7};
    cedar_request request = asked("write");
    char room[] = "####";
    cedar_buffer text = {room, 4, 9};
    CHECK(cedar_publish(copy, &files, NULL, &text) == CEDAR_ARGUMENT && text.written == 0);
    CHECK(cedar_publish_entities(copy, files.entities, NULL, NULL) == CEDAR_ARGUMENT);
    CHECK(cedar_publish_changes(copy, bytes_of("{}"), NULL, NULL) == CEDAR_ARGUMENT);
    CHECK(cedar_answer(copy, lines, &text) == CEDAR_ARGUMENT && cedar_answer_line(copy, lines, &text) == CEDAR_ARGUMENT);
    CHECK(cedar_answer_with_entities(copy, lines, &text) == CEDAR_ARGUMENT);
    CHECK(cedar_decide(copy, &request, &decision, &text) == CEDAR_ARGUMENT && decision.allow == 0 && decision.refused == 0);
    CHECK(cedar_explain_line(copy, lines, CEDAR_LINE, 0, CEDAR_WORDS, &text) == CEDAR_ARGUMENT);
    CHECK(cedar_explain_request(copy, &request, 0, CEDAR_WORDS, &text) == CEDAR_ARGUMENT && strcmp(room, "####") == 0);
    CHECK(cedar_share(copy, other) == CEDAR_ARGUMENT && cedar_share(other, copy) == CEDAR_ARGUMENT);
}

/* A copy of a handle is the same handle. Once it was freed it leads nowhere, also where a later handle has its place. */
static void check_copies(void) {
    enum { LATER = 3000 };
    static cedar_engine later[LATER];
    cedar_engine engine, copy, bare = {NULL};
    CHECK(cedar_new(&engine) == CEDAR_OK && cedar_publish(&engine, &files, NULL, NULL) == CEDAR_OK);
    copy = engine;
    CHECK(answers_are_right(&copy) && answers_are_right(&engine) && cedar_share(&engine, &copy) == CEDAR_ARGUMENT);
    CHECK(cedar_new(&later[0]) == CEDAR_OK && cedar_share(&copy, &later[0]) == CEDAR_OK);
    cedar_free(&engine);
    check_freed(&copy, &later[0]);
    for (int i = 1; i < LATER; i++) {
        CHECK(cedar_new(&later[i]) == CEDAR_OK);
    }
    CHECK(cedar_share(&later[0], &later[1]) == CEDAR_OK && cedar_share(&later[0], &later[LATER - 1]) == CEDAR_OK);
    check_freed(&copy, &later[0]);
    cedar_free(&copy);
    CHECK(!copy.at && answers_are_right(&later[0]) && answers_are_right(&later[1]) && answers_are_right(&later[LATER - 1]));
    for (int i = 0; i < LATER; i++) {
        copy = later[i];
        cedar_free(&later[i]);
        cedar_free(&copy);
        CHECK(!later[i].at && !copy.at);
    }
    /* Numbers that the library has not given lead nowhere. */
    for (uintptr_t mark = 1; mark; mark <<= 1) {
        copy.at = (void *)(mark | 1);
        check_freed(&copy, &engine);
        cedar_free(&copy);
    }
    /* A handle of the calls that check nothing is taken by those that check. */
    CHECK(cedar_raw_new(&bare.at) == CEDAR_OK && cedar_publish(&bare, &files, NULL, NULL) == CEDAR_OK && answers_are_right(&bare));
    CHECK(cedar_new(&engine) == CEDAR_OK && cedar_share(&bare, &engine) == CEDAR_OK);
    cedar_free(&bare);
    CHECK(!bare.at && answers_are_right(&engine));
    cedar_free(&engine);
}

static void check_arguments(void) {
    cedar_engine engine;
    cedar_decision decision = {sizeof decision, 7, 7};
    cedar_request request = asked("write");
    cedar_files other = files;
    cedar_refusal refusal = {.size = sizeof refusal - 1, .file = 7, .number = 7, .offset = 7};
    CHECK(cedar_new(&engine) == CEDAR_OK);
    CHECK(cedar_publish(&engine, &files, &refusal, NULL) == CEDAR_ARGUMENT && refusal.file == 7);
    CHECK(cedar_publish_entities(&engine, files.entities, &refusal, NULL) == CEDAR_ARGUMENT && refusal.file == 7);
    other.settings = 4;
    CHECK(cedar_publish(&engine, &other, NULL, NULL) == CEDAR_ARGUMENT && cedar_validate(&other, NULL) == CEDAR_ARGUMENT);
    CHECK(cedar_explain(&other, CEDAR_WORDS, NULL) == CEDAR_ARGUMENT && cedar_explain(&files, 2, NULL) == CEDAR_ARGUMENT);
    other = files;
    other.reserved = 1;
    CHECK(cedar_publish(&engine, &other, NULL, NULL) == CEDAR_ARGUMENT);
    other = files;
    other.size--;
    CHECK(cedar_publish(&engine, &other, NULL, NULL) == CEDAR_ARGUMENT && cedar_validate(&other, NULL) == CEDAR_ARGUMENT);
    other = files;
    other.settings = CEDAR_ANY_DECIMAL;
    CHECK(cedar_publish(&engine, &other, NULL, NULL) == CEDAR_OK);
    request.size++;
    CHECK(cedar_decide(&engine, &request, &decision, NULL) == CEDAR_ARGUMENT && decision.allow == 0);
    request.size--;
    decision.size++;
    CHECK(cedar_decide(&engine, &request, &decision, NULL) == CEDAR_ARGUMENT);
    CHECK(cedar_abi_version() == CEDAR_ABI_VERSION);
    cedar_free(&engine);
}

static void check_empty_bytes(void) {
    cedar_engine engine;
    cedar_buffer nothing = {NULL, 0, 9};
    cedar_bytes none = {NULL, 0};
    char room[64];
    cedar_buffer text = {room, sizeof room, 0};
    CHECK(cedar_new(&engine) == CEDAR_OK && cedar_publish(&engine, &files, NULL, NULL) == CEDAR_OK);
    CHECK(cedar_answer(&engine, none, &nothing) == CEDAR_OK && nothing.written == 0);
    nothing.written = 9;
    CHECK(cedar_answer_with_entities(&engine, none, &nothing) == CEDAR_OK && nothing.written == 0);
    CHECK(cedar_answer_line(&engine, none, &text) == CEDAR_OK && has(&text, bytes_of("{\"refused\":501}")));
    cedar_files empty = {sizeof empty, none, none, none, none, 0, 0};
    cedar_refusal refusal = {.size = sizeof refusal, .file = 0, .number = 0, .offset = 0};
    CHECK(cedar_publish(&engine, &empty, &refusal, &text) == CEDAR_REFUSED && refusal.file == CEDAR_SCHEMA && refusal.number == 301);
    CHECK(refusal.offset == CEDAR_NO_OFFSET && has(&text, bytes_of("{\"file\":\"schema\",\"refused\":301}\n")));
    CHECK(answers_are_right(&engine));
    /* Entities of no bytes are no JSON. */
    CHECK(cedar_publish_entities(&engine, none, &refusal, &text) == CEDAR_REFUSED && refusal.file == CEDAR_ENTITIES);
    CHECK(refusal.number == 501 && has(&text, bytes_of("{\"file\":\"entities\",\"refused\":501}\n")));
    CHECK(answers_are_right(&engine));
    cedar_free(&engine);
}

/* Bytes with a length and no address are what a read that failed leaves. They are never no bytes: neither a file, nor a part of a request. */
static void check_no_address(void) {
    cedar_engine engine;
    cedar_bytes lost = {NULL, 5};
    cedar_buffer no_room = {NULL, 5, 9};
    cedar_decision decision = {sizeof decision, 7, 7};
    CHECK(cedar_new(&engine) == CEDAR_OK && cedar_publish(&engine, &files, NULL, NULL) == CEDAR_OK);
    for (int i = 0; i < 4; i++) {
        cedar_files other = files;
        *(i == 0 ? &other.schema : i == 1 ? &other.policies : i == 2 ? &other.links : &other.entities) = lost;
        CHECK(cedar_publish(&engine, &other, NULL, NULL) == CEDAR_ARGUMENT && cedar_validate(&other, NULL) == CEDAR_ARGUMENT);
        CHECK(cedar_explain(&other, CEDAR_WORDS, NULL) == CEDAR_ARGUMENT);
    }
    for (int i = 0; i < 7; i++) {
        cedar_request request = asked("write");
        (&request.principal_type)[i] = lost;
        decision.allow = 7;
        CHECK(cedar_decide(&engine, &request, &decision, NULL) == CEDAR_ARGUMENT && decision.allow == 0);
        CHECK(cedar_explain_request(&engine, &request, 0, CEDAR_WORDS, NULL) == CEDAR_ARGUMENT);
    }
    cedar_request request = asked("write");
    CHECK(cedar_publish_entities(&engine, lost, NULL, NULL) == CEDAR_ARGUMENT);
    CHECK(cedar_publish_changes(&engine, lost, NULL, NULL) == CEDAR_ARGUMENT);
    CHECK(cedar_answer(&engine, lost, NULL) == CEDAR_ARGUMENT && cedar_answer_line(&engine, lost, NULL) == CEDAR_ARGUMENT);
    CHECK(cedar_answer_with_entities(&engine, lost, NULL) == CEDAR_ARGUMENT);
    CHECK(cedar_explain_line(&engine, lost, CEDAR_LINE, 0, CEDAR_WORDS, NULL) == CEDAR_ARGUMENT);
    CHECK(cedar_explain_changes(lost, files.entities, 501, CEDAR_WORDS, NULL) == CEDAR_ARGUMENT);
    CHECK(cedar_explain_changes(files.schema, lost, 501, CEDAR_WORDS, NULL) == CEDAR_ARGUMENT);
    CHECK(cedar_answer(&engine, lines, &no_room) == CEDAR_ARGUMENT && no_room.written == 0);
    CHECK(cedar_decide(&engine, &request, &decision, &no_room) == CEDAR_ARGUMENT && decision.allow == 0);
    CHECK(cedar_publish(&engine, &files, NULL, &no_room) == CEDAR_ARGUMENT && cedar_validate(&files, &no_room) == CEDAR_ARGUMENT);
    CHECK(cedar_publish_entities(&engine, files.entities, NULL, &no_room) == CEDAR_ARGUMENT && cedar_version(&no_room) == CEDAR_ARGUMENT);
    CHECK(answers_are_right(&engine));
    cedar_free(&engine);
}

/* The version and the statuses in words, and a refusal of the size that the first version has. */
static void check_numbers(void) {
    cedar_engine engine;
    char room[32], wanted[32];
    cedar_buffer text = {room, sizeof room, 0};
    cedar_files broken = files;
    cedar_refusal refusal = {offsetof(cedar_refusal, wants), 7, 7, 7, 7, 7, 7, {wanted, 7}, {wanted, 7}};
    snprintf(wanted, sizeof wanted, "%d.%d.%d", CEDAR_VERSION_MAJOR, CEDAR_VERSION_MINOR, CEDAR_VERSION_PATCH);
    CHECK(cedar_version(&text) == CEDAR_OK && has(&text, bytes_of(wanted)) && cedar_abi_version() == CEDAR_ABI_VERSION);
    for (uint32_t status = 0; status <= CEDAR_MORE + 2; status++) {
        int is_known = strcmp(cedar_status_text(status), "an unknown status") != 0;
        CHECK(is_known == (status <= CEDAR_MORE) && (status == 0 || strcmp(cedar_status_text(status), cedar_status_text(status - 1)) != 0 || !is_known));
    }
    broken.policies = bytes_of("permit(");
    CHECK(cedar_new(&engine) == CEDAR_OK && cedar_publish(&engine, &broken, &refusal, NULL) == CEDAR_REFUSED && refusal.number == 201);
    /* The fields after those of the first version are as they were. */
    CHECK(refusal.wants == 7 && refusal.line == 7 && refusal.words.at == wanted && refusal.text.length == 7);
    cedar_refusal_free(&refusal);
    CHECK(refusal.words.at == wanted);
    for (size_t size = 0; size <= sizeof refusal + 8; size++) {
        refusal.size = size;
        refusal.wants = refusal.reserved = 0;
        uint32_t status = cedar_publish(&engine, &broken, &refusal, NULL);
        CHECK(status == (size == 24 || size == sizeof refusal ? CEDAR_REFUSED : CEDAR_ARGUMENT));
    }
    refusal = (cedar_refusal){.size = sizeof refusal, .wants = 2};
    CHECK(cedar_publish(&engine, &broken, &refusal, NULL) == CEDAR_ARGUMENT);
    refusal = (cedar_refusal){.size = sizeof refusal, .reserved = 1};
    CHECK(cedar_publish(&engine, &broken, &refusal, NULL) == CEDAR_ARGUMENT);
    cedar_free(&engine);
}

/* A refusal has its words if they are wanted: those that cedar_explain gives. */
static void check_words(void) {
    static const char *const POLICIES[] = {"permit(", "permit(principal, action, resource) when { 1 };", "\n\npermit(principal, action)"};
    cedar_engine engine;
    char room[4096], line[1024], report[1024];
    CHECK(cedar_new(&engine) == CEDAR_OK);
    for (size_t i = 0; i < sizeof POLICIES / sizeof *POLICIES; i++) {
        cedar_files broken = files;
        cedar_refusal refusal = {.size = sizeof refusal, .wants = CEDAR_WANTS_WORDS}, checked = refusal;
        cedar_buffer text = {line, sizeof line, 0}, words = {room, sizeof room, 0}, told = {report, sizeof report, 0};
        broken.policies = bytes_of(POLICIES[i]);
        uint32_t status = cedar_publish(&engine, &broken, &refusal, &text);
        CHECK(status == (i == 1 ? CEDAR_FAULTS : CEDAR_REFUSED) && has(&text, refusal.text) && refusal.text.length > 20);
        CHECK(cedar_explain(&broken, CEDAR_WORDS, &words) == CEDAR_OK && has(&words, refusal.words) && refusal.words.length > 40);
        CHECK(((const char *)refusal.words.at)[refusal.words.length] == 0 && refusal.line == (i == 0 ? 1 : i == 1 ? 0 : 3));
        CHECK(cedar_validate_files(&broken, &checked, &told) == status && has(&told, refusal.text));
        CHECK(checked.number == refusal.number && checked.line == refusal.line && (i == 1 || has(&words, checked.words)));
        cedar_refusal_free(&refusal);
        cedar_refusal_free(&refusal);
        cedar_refusal_free(&checked);
        CHECK(refusal.words.at == NULL && refusal.text.length == 0);
        text.room = 3;
        CHECK(cedar_publish(&engine, &broken, &refusal, &text) == status && text.written == refusal.text.length);
        cedar_refusal_free(&refusal);
    }
    cedar_refusal none = {.size = sizeof none, .wants = CEDAR_WANTS_WORDS, .line = 9};
    CHECK(cedar_publish(&engine, &files, &none, NULL) == CEDAR_OK && none.words.at == NULL && none.text.at == NULL && none.line == 0);
    CHECK(answers_are_right(&engine));
    cedar_free(&engine);
}

/* A refused request has words, by parts and as a line. They are those of `cedar authorize --explain-lines`, of a file `request`. */
static void check_words_of_requests(void) {
    static const char FLY[] = "error[510]: an action is not declared\n --> request\n   = action: Action::\"fly\" is not declared\n";
    static const char LINE[] = "{\"principal\":\"User::\\\"ann\\\"\",\"action\":\"Action::\\\"fly\\\"\",\"resource\":\"Notebook::\\\"plans\\\"\"}";
    cedar_engine engine;
    char room[1024] = "";
    cedar_buffer text = {room, sizeof room, 0};
    cedar_request fly = asked("fly"), write = asked("write"), odd = asked("write");
    CHECK(cedar_new(&engine) == CEDAR_OK && cedar_explain_line(&engine, lines, CEDAR_LINE, 0, CEDAR_WORDS, &text) == CEDAR_NO_ENGINE);
    CHECK(cedar_publish(&engine, &files, NULL, NULL) == CEDAR_OK);
    CHECK(cedar_explain_request(&engine, &fly, 510, CEDAR_WORDS, &text) == CEDAR_OK && has(&text, bytes_of(FLY)));
    for (uint32_t kind = CEDAR_LINE; kind <= CEDAR_LINE_WITH_ENTITIES; kind++) {
        CHECK(cedar_explain_line(&engine, bytes_of(LINE), kind, 0, CEDAR_WORDS, &text) == CEDAR_OK && has(&text, bytes_of(FLY)));
        CHECK(cedar_explain_line(&engine, bytes_of(LINE), kind, 511, CEDAR_WORDS, &text) == CEDAR_OK && text.written == 0);
        CHECK(cedar_explain_line(&engine, bytes_of(LINE), kind, 0, CEDAR_JSON, &text) == CEDAR_OK && strstr(room, "\"number\":510"));
    }
    CHECK(cedar_explain_line(&engine, bytes_of(LINE), 2, 0, CEDAR_WORDS, &text) == CEDAR_ARGUMENT);
    CHECK(cedar_explain_line(&engine, bytes_of(LINE), CEDAR_LINE, 0, 2, &text) == CEDAR_ARGUMENT);
    CHECK(cedar_explain_request(&engine, &write, 0, CEDAR_WORDS, &text) == CEDAR_OK && text.written == 0);
    text.room = 3;
    CHECK(cedar_explain_request(&engine, &fly, 510, CEDAR_WORDS, &text) == CEDAR_ROOM && text.written == strlen(FLY));
    text.room = sizeof room;
    /* Each byte of an id is one of the request that is explained, and a context brings no members of its own. */
    odd.principal_id = (cedar_bytes){"\"\\\n\0\x1f\xc3\xa9", 7};
    CHECK(cedar_explain_request(&engine, &odd, 0, CEDAR_WORDS, &text) == CEDAR_OK && text.written == 0);
    odd = asked("write");
    odd.context = bytes_of("{}},{\"principal\":1");
    CHECK(cedar_explain_request(&engine, &odd, 501, CEDAR_WORDS, &text) == CEDAR_OK && text.written > 0);
    odd.context = bytes_of("{\"n\":1}");
    CHECK(cedar_explain_request(&engine, &odd, 506, CEDAR_WORDS, &text) == CEDAR_OK && text.written > 0);
    odd.context = (cedar_bytes){NULL, 0};
    odd.principal_type = bytes_of("no name");
    CHECK(cedar_explain_request(&engine, &odd, 502, CEDAR_WORDS, &text) == CEDAR_OK && text.written > 0);
    odd.principal_type = bytes_of("\xff");
    CHECK(cedar_explain_request(&engine, &odd, 502, CEDAR_WORDS, &text) == CEDAR_OK && text.written == 0);
    cedar_free(&engine);
}

/* A call that answers lines. */
typedef uint32_t answering(cedar_engine *engine, cedar_bytes lines, cedar_buffer *text);

/* A buffer that is too small for the answers is left as it is, at each length, and the next one has them. */
static void check_room_for(answering *call, cedar_engine *engine, cedar_bytes asked_lines, cedar_bytes wanted) {
    char room[4096];
    cedar_buffer text = {room, 0, 0};
    for (size_t length = 0; length < wanted.length; length++) {
        memset(room, '#', sizeof room);
        text.room = length;
        int is_right = call(engine, asked_lines, &text) == CEDAR_ROOM && text.written == wanted.length;
        for (size_t i = 0; i < sizeof room; i++) {
            is_right = is_right && room[i] == '#';
        }
        CHECK(is_right);
    }
    text.room = wanted.length;
    CHECK(call(engine, asked_lines, &text) == CEDAR_OK && has(&text, wanted));
}

static void check_room(void) {
    cedar_engine engine;
    cedar_request request = asked("write");
    cedar_decision decision = {sizeof decision, 7, 7};
    char room[4096];
    cedar_buffer text = {room, 0, 0};
    CHECK(cedar_new(&engine) == CEDAR_OK && cedar_publish(&engine, &files, NULL, NULL) == CEDAR_OK);
    check_room_for(cedar_answer, &engine, lines, answers);
    /* Lines that bring nothing have the same answers. */
    check_room_for(cedar_answer_with_entities, &engine, lines, answers);
    for (text.room = 1; cedar_decide(&engine, &request, &decision, &text) == CEDAR_ROOM; text.room++) {
        CHECK(decision.allow == 0 && text.written > text.room);
    }
    CHECK(decision.allow == 1 && has(&text, (cedar_bytes){answers.at, text.room}) && text.room == 58);
    text.room = 0;
    decision.allow = 0;
    CHECK(cedar_decide(&engine, &request, &decision, &text) == CEDAR_OK && decision.allow == 1 && text.written == 0);
    cedar_free(&engine);
}

/* Refused files leave a handle and those that share with it as they are; published ones leave those that share. */
static void check_versions(void) {
    cedar_engine engine, other;
    cedar_files broken = files, open = files;
    cedar_refusal refusal = {.size = sizeof refusal, .file = 0, .number = 0, .offset = 0};
    cedar_request request = asked("delete");
    cedar_decision decision = {sizeof decision, 7, 7};
    char room[4096];
    cedar_buffer text = {room, sizeof room, 0};
    broken.policies = bytes_of("permit(principal, action, resource) when { 1 };");
    open.policies = bytes_of("permit(principal, action, resource);");
    CHECK(cedar_new(&engine) == CEDAR_OK && cedar_new(&other) == CEDAR_OK && cedar_publish(&engine, &files, &refusal, NULL) == CEDAR_OK);
    CHECK(refusal.file == 0 && refusal.number == 0 && refusal.offset == CEDAR_NO_OFFSET);
    CHECK(cedar_share(&engine, &other) == CEDAR_OK && answers_are_right(&other) && answers_are_right(&engine));
    CHECK(cedar_publish(&engine, &broken, &refusal, &text) == CEDAR_FAULTS && text.written > 20 && refusal.number == 0);
    size_t needed = text.written;
    text.room = needed - 1;
    CHECK(cedar_publish(&engine, &broken, NULL, &text) == CEDAR_FAULTS && text.written == needed);
    text.room = sizeof room;
    CHECK(cedar_validate(&broken, &text) == CEDAR_FAULTS && text.written == needed);
    CHECK(answers_are_right(&engine) && answers_are_right(&other));
    broken.policies = bytes_of("permit(");
    CHECK(cedar_publish(&engine, &broken, &refusal, &text) == CEDAR_REFUSED && refusal.file == CEDAR_POLICIES);
    CHECK(refusal.number == 201 && refusal.offset == 7);
    CHECK(has(&text, bytes_of("{\"file\":\"policies\",\"offset\":7,\"refused\":201}\n")));
    CHECK(cedar_validate(&broken, &text) == CEDAR_REFUSED);
    CHECK(has(&text, bytes_of("{\"file\":\"policies\",\"offset\":7,\"refused\":201}\n")));
    CHECK(answers_are_right(&engine) && answers_are_right(&other));
    CHECK(cedar_publish(&engine, &open, NULL, NULL) == CEDAR_OK && answers_are_right(&other));
    CHECK(cedar_decide(&engine, &request, &decision, NULL) == CEDAR_OK && decision.allow == 1);
    CHECK(cedar_decide(&other, &request, &decision, NULL) == CEDAR_OK && decision.allow == 0);
    CHECK(cedar_share(&engine, &other) == CEDAR_OK);
    cedar_free(&engine);
    CHECK(cedar_decide(&other, &request, &decision, NULL) == CEDAR_OK && decision.allow == 1);
    cedar_free(&other);
}

/* Ann in no group, and entries with a fault: a type and an attribute that are not declared. */
#define ANN "{\"uid\":{\"type\":\"User\",\"id\":\"ann\"}}"
#define GHOST "{\"uid\":{\"type\":\"Ghost\",\"id\":\"g\"}}"
#define MISSPELT \
    "{\"uid\":{\"type\":\"Photo\",\"id\":\"sunset\"}," \
    "\"attrs\":{\"owner\":{\"type\":\"User\",\"id\":\"jane\"},\"private\":false,\"lables\":[\"public\"]}}"
/* Entities in which ann is in no group. */
#define ANN_IN_NO_GROUP \
    "[" ANN "," \
    "{\"uid\":{\"type\":\"Photo\",\"id\":\"beach\"},\"attrs\":{\"owner\":{\"type\":\"User\",\"id\":\"jane\"},\"private\":false}," \
    "\"parents\":[{\"type\":\"Album\",\"id\":\"jane_vacation\"}]}]"
#define ALLOWED "{\"decision\":\"allow\",\"determining\":[\"shared-with-friends\"],\"erring\":[]}"
#define DENIED "{\"decision\":\"deny\",\"determining\":[],\"erring\":[]}"
/* What is answered where the beach is not stored: `private` reads an attribute of it, and the other policies ask whether it has one. */
#define NOT_STORED "{\"decision\":\"deny\",\"determining\":[],\"erring\":[{\"error\":\"missing_entity\",\"policy\":\"private\"}]}"
#define REFUSED_506 "{\"file\":\"entities\",\"refused\":506}\n"

/* The line in which ann views the beach of examples/photos, and the same with entities. */
#define VIEW "{\"principal\":\"User::\\\"ann\\\"\",\"action\":\"Action::\\\"view\\\"\",\"resource\":\"Photo::\\\"beach\\\"\""
#define VIEW_LINE VIEW "}"
#define BRINGING(entities) VIEW ",\"entities\":" entities "}"

/* Whether this is answered where ann views the beach of examples/photos. */
static int is_answered(cedar_engine *engine, const char *answer) {
    char room[256];
    cedar_buffer text = {room, sizeof room, 0};
    return cedar_answer_line(engine, bytes_of(VIEW_LINE), &text) == CEDAR_OK && has(&text, bytes_of(answer));
}

/* Whether entities of examples/photos are refused as `cedar_publish` refuses them, with any room for the text, and explained by the schema
 * alone in the same words. */
static int are_refused(cedar_engine *engine, cedar_files photos, cedar_bytes entities, uint32_t number, const char *line) {
    cedar_refusal refusal = {.size = sizeof refusal, .file = 7, .number = 7, .offset = 7}, other = {.size = sizeof other, .file = 7, .number = 7, .offset = 7};
    char room[64], words[2][1024];
    cedar_buffer text = {room, sizeof room, 0}, all = {words[0], sizeof words[0], 0}, alone = {words[1], sizeof words[1], 0};
    int is_right = cedar_publish_entities(engine, entities, &refusal, &text) == CEDAR_REFUSED && has(&text, bytes_of(line));
    is_right = is_right && refusal.file == CEDAR_ENTITIES && refusal.number == number && refusal.offset == CEDAR_NO_OFFSET;
    is_right = is_right && cedar_publish_entities(engine, entities, NULL, NULL) == CEDAR_REFUSED;
    for (text.room = 0; text.room < strlen(line); text.room++) {
        memset(room, '#', sizeof room);
        is_right = is_right && cedar_publish_entities(engine, entities, NULL, &text) == CEDAR_REFUSED && text.written == strlen(line);
        for (size_t i = 0; i < sizeof room; i++) {
            is_right = is_right && room[i] == '#';
        }
    }
    photos.entities = entities;
    is_right = is_right && cedar_publish(engine, &photos, &other, NULL) == CEDAR_REFUSED && memcmp(&refusal, &other, sizeof other) == 0;
    is_right = is_right && cedar_explain(&photos, CEDAR_WORDS, &all) == CEDAR_OK;
    photos.policies = photos.links = (cedar_bytes){NULL, 0};
    return is_right && cedar_explain(&photos, CEDAR_WORDS, &alone) == CEDAR_OK && alone.written > 20
        && has(&all, (cedar_bytes){words[1], alone.written});
}

/* Entities are swapped under the same policies, for one handle and not for those that share with it. */
static void check_entities(const char *folder) {
    cedar_engine engine, other;
    char photos_folder[4096];
    snprintf(photos_folder, sizeof photos_folder, "%s/../photos", folder);
    cedar_files photos = files_of(photos_folder);
    cedar_bytes broken = content(photos_folder, "broken_entities.json");
    cedar_refusal refusal = {.size = sizeof refusal, .file = 7, .number = 7, .offset = 7};
    CHECK(cedar_new(&engine) == CEDAR_OK && cedar_new(&other) == CEDAR_OK && cedar_publish(&engine, &photos, NULL, NULL) == CEDAR_OK);
    CHECK(cedar_share(&engine, &other) == CEDAR_OK && is_answered(&engine, ALLOWED) && is_answered(&other, ALLOWED));
    CHECK(cedar_publish_entities(&engine, bytes_of(ANN_IN_NO_GROUP), &refusal, NULL) == CEDAR_OK);
    CHECK(refusal.file == 0 && refusal.number == 0 && refusal.offset == CEDAR_NO_OFFSET);
    CHECK(is_answered(&engine, DENIED) && is_answered(&other, ALLOWED));
    CHECK(are_refused(&engine, photos, broken, 506, REFUSED_506));
    CHECK(are_refused(&engine, photos, bytes_of("{}"), 502, "{\"file\":\"entities\",\"refused\":502}\n"));
    CHECK(are_refused(&engine, photos, bytes_of("[\xff]"), 501, "{\"file\":\"entities\",\"refused\":501}\n"));
    CHECK(is_answered(&engine, DENIED) && is_answered(&other, ALLOWED));
    CHECK(cedar_publish_entities(&engine, bytes_of("[]"), NULL, NULL) == CEDAR_OK && is_answered(&engine, NOT_STORED));
    CHECK(cedar_share(&engine, &other) == CEDAR_OK && is_answered(&other, NOT_STORED));
    CHECK(cedar_publish_entities(&engine, photos.entities, NULL, NULL) == CEDAR_OK && is_answered(&engine, ALLOWED));
    cedar_free(&engine);
    CHECK(is_answered(&other, NOT_STORED) && cedar_publish_entities(&other, photos.entities, NULL, NULL) == CEDAR_OK);
    CHECK(is_answered(&other, ALLOWED));
    cedar_free(&other);
    free_files(&photos);
    free((void *)broken.at);
}

/* No line sees the entities of another, whether these are taken or refused. */
static void check_lines_with_entities(cedar_engine *engine) {
    const struct {
        const char *line, *answer;
    } cases[] = {{VIEW_LINE, ALLOWED "\n"},
                 {BRINGING(ANN_IN_NO_GROUP), DENIED "\n"},
                 {VIEW_LINE, ALLOWED "\n"},
                 {BRINGING("[" ANN "," MISSPELT "]"), "{\"refused\":506}\n"},
                 {BRINGING("[]"), ALLOWED "\n"},
                 {BRINGING("[" ANN "," GHOST "]"), "{\"refused\":503}\n"},
                 {BRINGING("[" ANN "," ANN "]"), "{\"refused\":401}\n"},
                 {BRINGING("{}"), "{\"refused\":502}\n"},
                 {BRINGING("[" ANN), "{\"refused\":501}\n"},
                 {VIEW_LINE, ALLOWED "\n"},
                 {BRINGING("[" ANN "]"), DENIED "\n"}};
    char asked_lines[4096] = "", wanted[4096] = "", room[256];
    cedar_buffer text = {room, sizeof room, 0};
    for (size_t i = 0; i < sizeof cases / sizeof *cases; i++) {
        /* A line alone, without its line feed, has the same answer. */
        CHECK(cedar_answer_with_entities(engine, bytes_of(cases[i].line), &text) == CEDAR_OK && has(&text, bytes_of(cases[i].answer)));
        CHECK(is_answered(engine, ALLOWED));
        strcat(strcat(asked_lines, cases[i].line), "\n");
        strcat(wanted, cases[i].answer);
    }
    check_room_for(cedar_answer_with_entities, engine, bytes_of(asked_lines), bytes_of(wanted));
    CHECK(is_answered(engine, ALLOWED));
}

/* Lines that bring entities, over those of examples/photos and over none. Only cedar_answer_with_entities takes them. */
static void check_brought(const char *folder) {
    cedar_engine engine, other;
    char photos_folder[4096], room[64];
    cedar_buffer text = {room, sizeof room, 0};
    snprintf(photos_folder, sizeof photos_folder, "%s/../photos", folder);
    cedar_files photos = files_of(photos_folder);
    cedar_bytes brought = content(photos_folder, "requests_with_entities.jsonl");
    cedar_bytes wanted = content(photos_folder, "answers_with_entities.jsonl");
    CHECK(cedar_new(&engine) == CEDAR_OK && cedar_new(&other) == CEDAR_OK && cedar_publish(&engine, &photos, NULL, NULL) == CEDAR_OK);
    CHECK(cedar_share(&engine, &other) == CEDAR_OK);
    check_lines_with_entities(&engine);
    CHECK(is_answered(&other, ALLOWED));
    CHECK(cedar_answer_line(&engine, bytes_of(BRINGING("[]")), &text) == CEDAR_OK && has(&text, bytes_of("{\"refused\":502}")));
    CHECK(cedar_answer(&engine, bytes_of(BRINGING("[]")), &text) == CEDAR_OK && has(&text, bytes_of("{\"refused\":502}\n")));
    CHECK(cedar_publish_entities(&engine, bytes_of("[]"), NULL, NULL) == CEDAR_OK && is_answered(&engine, NOT_STORED));
    check_room_for(cedar_answer_with_entities, &engine, brought, wanted);
    CHECK(is_answered(&engine, NOT_STORED) && is_answered(&other, ALLOWED));
    cedar_free(&engine);
    cedar_free(&other);
    free_files(&photos);
    free((void *)brought.at);
    free((void *)wanted.at);
}

static void check_refused_requests(void) {
    const struct {
        const char *principal, *action, *context, *text;
        uint32_t number;
    } cases[] = {{"User", "fly", "", "{\"refused\":510}", 510},       {"no name", "write", "", "{\"refused\":502}", 502},
                 {"", "write", "", "{\"refused\":502}", 502},          {"\xff", "write", "", "{\"refused\":502}", 502},
                 {"User", "write", "[", "{\"refused\":501}", 501},     {"User", "write", "{\"n\":1}", "{\"refused\":506}", 506},
                 {"Notebook", "write", "", "{\"refused\":511}", 511}, {"Ghost", "write", "", "{\"refused\":503}", 503}};
    cedar_engine engine;
    char room[64];
    cedar_buffer text = {room, sizeof room, 0};
    CHECK(cedar_new(&engine) == CEDAR_OK && cedar_publish(&engine, &files, NULL, NULL) == CEDAR_OK);
    for (size_t i = 0; i < sizeof cases / sizeof *cases; i++) {
        cedar_request request = asked(cases[i].action);
        cedar_decision decision = {sizeof decision, 7, 7};
        request.principal_type = bytes_of(cases[i].principal);
        request.context = bytes_of(cases[i].context);
        CHECK(cedar_decide(&engine, &request, &decision, &text) == CEDAR_NO_REQUEST);
        CHECK(decision.refused == cases[i].number && decision.allow == 0 && has(&text, bytes_of(cases[i].text)));
    }
    cedar_free(&engine);
}

static void check_fork(void) {
    cedar_engine engine;
    CHECK(cedar_new(&engine) == CEDAR_OK && cedar_publish(&engine, &files, NULL, NULL) == CEDAR_OK);
    pid_t child = fork();
    if (child == 0) {
        int is_right = answers_are_right(&engine) && cedar_publish(&engine, &files, NULL, NULL) == CEDAR_OK && answers_are_right(&engine);
        cedar_free(&engine);
        _exit(is_right ? 0 : 1);
    }
    int status = 1;
    CHECK(waitpid(child, &status, 0) == child && status == 0);
    CHECK(answers_are_right(&engine));
    cedar_free(&engine);
}

/* Files of the language of Cedar 4 are refused in the default language, and so are their changes explained without their place. */
static void check_languages(const char *folder) {
    static const char WHERE[] = "error[506]: an attribute is not declared\n --> changes.json: upsert entry 0 (from 0), User::\"bob\"\n";
    char path[4096], room[4096] = "";
    snprintf(path, sizeof path, "%s/../../tests/bindings/language_4", folder);
    cedar_files four = files_of(path), three = four;
    cedar_bytes asked_lines = content(path, "requests.jsonl"), wanted = content(path, "answers.jsonl");
    cedar_bytes changes = content(path, "changes.json"), broken = content(path, "refused_changes.json");
    cedar_buffer text = {room, sizeof room, 0};
    cedar_refusal refusal = {.size = sizeof refusal};
    cedar_engine engine;
    four.settings = CEDAR_LANGUAGE_4;
    CHECK(cedar_new(&engine) == CEDAR_OK && cedar_publish(&engine, &three, &refusal, &text) == CEDAR_REFUSED);
    CHECK(refusal.file == CEDAR_SCHEMA && refusal.number == 303 && has(&text, bytes_of("{\"file\":\"schema\",\"refused\":303}\n")));
    CHECK(cedar_validate(&three, &text) == CEDAR_REFUSED && cedar_validate(&four, &text) == CEDAR_OK);
    CHECK(cedar_explain(&three, CEDAR_WORDS, &text) == CEDAR_OK && text.written > 20);
    CHECK(cedar_explain(&four, CEDAR_WORDS, &text) == CEDAR_OK && text.written == 0);
    CHECK(cedar_publish(&engine, &four, &refusal, NULL) == CEDAR_OK);
    CHECK(cedar_answer(&engine, asked_lines, &text) == CEDAR_OK && has(&text, wanted));
    four.settings |= CEDAR_ANY_DECIMAL;
    CHECK(cedar_publish(&engine, &four, &refusal, NULL) == CEDAR_OK);
    CHECK(cedar_answer(&engine, asked_lines, &text) == CEDAR_OK && has(&text, wanted));
    CHECK(cedar_publish_changes(&engine, broken, &refusal, NULL) == CEDAR_REFUSED && refusal.number == 506);
    CHECK(cedar_explain_changes_in(four.schema, broken, four.settings, 506, CEDAR_WORDS, &text) == CEDAR_OK);
    CHECK(text.written > strlen(WHERE) && memcmp(room, WHERE, strlen(WHERE)) == 0);
    CHECK(cedar_explain_changes(four.schema, broken, 506, CEDAR_WORDS, &text) == CEDAR_OK && text.written > 20);
    CHECK(memcmp(room, WHERE, strlen(WHERE)) != 0);
    CHECK(cedar_explain_changes_in(four.schema, broken, 4, 506, CEDAR_WORDS, &text) == CEDAR_ARGUMENT && text.written == 0);
    CHECK(cedar_explain_changes_in(four.schema, broken, 2, 506, 2, &text) == CEDAR_ARGUMENT && text.written == 0);
    CHECK(cedar_publish_changes(&engine, changes, &refusal, NULL) == CEDAR_OK);
    cedar_decision decision = {sizeof decision, 7, 7};
    cedar_request request = {sizeof request,   bytes_of("User"), bytes_of("bob"), bytes_of("Action"),
                             bytes_of("read"), bytes_of("Doc"),  bytes_of("d"),   {NULL, 0}};
    CHECK(cedar_decide(&engine, &request, &decision, NULL) == CEDAR_OK && decision.allow == 1);
    snprintf(path, sizeof path, "%s/../shares", folder);
    cedar_files shares = files_of(path);
    cedar_bytes asked_shares = content(path, "requests.jsonl"), wanted_shares = content(path, "answers.jsonl");
    shares.settings = CEDAR_LANGUAGE_4;
    CHECK(cedar_publish(&engine, &shares, &refusal, NULL) == CEDAR_OK);
    CHECK(cedar_answer(&engine, asked_shares, &text) == CEDAR_OK && has(&text, wanted_shares));
    free_files(&shares);
    free((void *)asked_shares.at);
    free((void *)wanted_shares.at);
    cedar_free(&engine);
    free_files(&four);
    free((void *)asked_lines.at);
    free((void *)wanted.at);
    free((void *)changes.at);
    free((void *)broken.at);
}

int main(int count, char **words) {
    if (count != 2) {
        return 9;
    }
    files = files_of(words[1]);
    lines = content(words[1], "requests.jsonl");
    answers = content(words[1], "answers.jsonl");
    check_null();
    check_empty_handle();
    check_copies();
    check_arguments();
    check_empty_bytes();
    check_no_address();
    check_numbers();
    check_words();
    check_words_of_requests();
    check_room();
    check_versions();
    check_entities(words[1]);
    check_brought(words[1]);
    check_refused_requests();
    check_languages(words[1]);
    check_fork();
    free_files(&files);
    free((void *)lines.at);
    free((void *)answers.at);
    return counted();
}
