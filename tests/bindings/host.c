/* A host in C: host FOLDER MODE LINES TEXT .., with four words for each job. It writes a text to the file TEXT, and prints a status. A mode
 * is one of these.
 *
 *   batch     answers the request lines of the file LINES by one call
 *   lines     answers each of them by a call
 *   parts     answers requests by parts: each line has seven fields, with the byte 1F between them
 *   entities  publishes the files with no entities, then the entities alone, and answers the request lines by one call
 *   changes   publishes the files with no entities, then upserts all entities, and answers the request lines by one call
 *   brought   publishes the files with no entities, and answers the request lines, which may bring entities, by one call
 *   publish   publishes the files, and gives the text of the call and its status
 *   publish-entities  publishes the files with no entities, then the entities alone, and gives the text of that call and its status
 *   publish-changes   publishes the files with no entities, then upserts all entities, and gives the text of that call and its status
 *   validate  validates the files, and gives the text of the call and its status
 *   words     explains the files in words; `json` explains them as JSON lines
 *   entities-words    explains the entities in words, by the schema alone */
#include "files.h"

static cedar_buffer text;
static FILE *to;

static int print(uint32_t status) {
    fwrite(text.at, 1, text.written, to);
    return (int)status;
}

/* Answers lines by one call. */
static int print_answers(cedar_engine *engine, cedar_bytes lines, uint32_t (*call)(cedar_engine *, cedar_bytes, cedar_buffer *)) {
    uint32_t status;
    do {
        status = call(engine, lines, &text);
    } while (status == CEDAR_ROOM && grows(&text));
    return print(status);
}

static int print_lines(cedar_engine *engine, cedar_bytes lines) {
    const char *at = lines.at, *end = at + lines.length;
    while (at < end) {
        const char *feed = memchr(at, '\n', (size_t)(end - at));
        cedar_bytes line = {at, (size_t)((feed ? feed : end) - at)};
        uint32_t status;
        do {
            status = cedar_answer_line(engine, line, &text);
        } while (status == CEDAR_ROOM && grows(&text));
        if (status != CEDAR_OK) {
            return (int)status;
        }
        print(status);
        putc('\n', to);
        at = feed ? feed + 1 : end;
    }
    return 0;
}

/* Whether a decision without a text agrees with one that has a text. */
static int agrees(cedar_engine *engine, const cedar_request *request, uint32_t status, const cedar_decision *decision) {
    cedar_decision alone = {sizeof alone, 9, 9};
    return cedar_decide(engine, request, &alone, NULL) == status && alone.allow == decision->allow && alone.refused == decision->refused;
}

static int print_parts(cedar_engine *engine, cedar_bytes lines) {
    const char *at = lines.at, *end = at + lines.length;
    text.written = 1; /* A buffer without room would say that no text is wanted. */
    grows(&text);
    while (at < end) {
        cedar_bytes fields[7];
        for (int i = 0; i < 7; i++) {
            const char *stop = memchr(at, i < 6 ? '\x1f' : '\n', (size_t)(end - at));
            if (!stop) {
                return 9;
            }
            fields[i] = (cedar_bytes){at, (size_t)(stop - at)};
            at = stop + 1;
        }
        cedar_request request = {sizeof request, fields[0], fields[1], fields[2], fields[3], fields[4], fields[5], fields[6]};
        cedar_decision decision = {sizeof decision, 9, 9};
        uint32_t status;
        do {
            status = cedar_decide(engine, &request, &decision, &text);
        } while (status == CEDAR_ROOM && grows(&text));
        int is_allow = text.written > 20 && memcmp(text.at, "{\"decision\":\"allow\"", 19) == 0;
        if ((status != CEDAR_OK && status != CEDAR_NO_REQUEST) || is_allow != (int)decision.allow ||
            !agrees(engine, &request, status, &decision)) {
            return 9;
        }
        print(status);
        putc('\n', to);
    }
    return 0;
}

/* Publishes the files with no entities. */
static uint32_t publish_without_entities(cedar_engine *engine, cedar_files files) {
    files.entities = bytes_of("[]");
    return cedar_publish(engine, &files, NULL, NULL);
}

/* Publishes entities over no entities, in one of two ways: all at once, or as changes that upsert each. */
static uint32_t publish_over(cedar_engine *engine, cedar_bytes entities, int is_change, cedar_buffer *to) {
    if (!is_change) {
        return cedar_publish_entities(engine, entities, NULL, to);
    }
    cedar_bytes changes = upserts(entities);
    uint32_t status = cedar_publish_changes(engine, changes, NULL, to);
    free((void *)changes.at);
    return status;
}

static int is(const char *mode, const char *name) { return strcmp(mode, name) == 0; }

/* Publishes what a mode answers according to. */
static uint32_t publish_for(cedar_engine *engine, const cedar_files *files, const char *mode) {
    int is_over = is(mode, "entities") || is(mode, "changes");
    if (!is_over && !is(mode, "brought")) {
        return cedar_publish(engine, files, NULL, NULL);
    }
    uint32_t status = publish_without_entities(engine, *files);
    return status == CEDAR_OK && is_over ? publish_over(engine, files->entities, is(mode, "changes"), NULL) : status;
}

static int answered(const cedar_files *files, const char *mode, FILE *from) {
    cedar_engine engine;
    int ended = 9;
    if (cedar_new(&engine) != CEDAR_OK || publish_for(&engine, files, mode) != CEDAR_OK) {
        return 9;
    }
    cedar_bytes lines = read_all(from);
    if (is(mode, "batch") || is(mode, "entities") || is(mode, "changes")) {
        ended = print_answers(&engine, lines, cedar_answer);
    } else if (is(mode, "brought")) {
        ended = print_answers(&engine, lines, cedar_answer_with_entities);
    } else if (is(mode, "lines")) {
        ended = print_lines(&engine, lines);
    } else if (is(mode, "parts")) {
        ended = print_parts(&engine, lines);
    }
    free((void *)lines.at);
    cedar_free(&engine);
    return ended;
}

static int published(const cedar_files *files, const char *mode) {
    cedar_engine engine;
    int is_over = strcmp(mode, "publish") != 0, is_change = strcmp(mode, "publish-changes") == 0;
    uint32_t status = cedar_new(&engine);
    if (status == CEDAR_OK && is_over && publish_without_entities(&engine, *files) != CEDAR_OK) {
        return 9;
    }
    if (status == CEDAR_OK) {
        do {
            status = is_over ? publish_over(&engine, files->entities, is_change, &text) : cedar_publish(&engine, files, NULL, &text);
        } while (status != CEDAR_OK && grows(&text));
        cedar_free(&engine);
    }
    return print(status);
}

static int judged(const cedar_files *files, const char *mode) {
    uint32_t status;
    cedar_files alone = {sizeof alone, files->schema, {NULL, 0}, {NULL, 0}, files->entities, 0, 0};
    files = strcmp(mode, "entities-words") == 0 ? &alone : files;
    do {
        status = strcmp(mode, "validate") == 0 ? cedar_validate(files, &text)
                                               : cedar_explain(files, strcmp(mode, "json") == 0 ? CEDAR_JSON : CEDAR_WORDS, &text);
    } while (grows(&text));
    return print(status);
}

/* Does a job. Its buffer has no room at first. */
static int done(char **words) {
    cedar_files files = files_of(words[0]);
    const char *mode = words[1];
    FILE *from = fopen(words[2], "rb");
    to = fopen(words[3], "wb");
    if (!from || !to) {
        exit(9);
    }
    int is_published = strncmp(mode, "publish", 7) == 0;
    int is_judged = strcmp(mode, "validate") == 0 || strcmp(mode, "json") == 0 || strstr(mode, "words") != NULL;
    int ended = is_published ? published(&files, mode) : is_judged ? judged(&files, mode) : answered(&files, mode, from);
    fclose(from);
    fclose(to);
    free_files(&files);
    free(text.at);
    text = (cedar_buffer){NULL, 0, 0};
    return ended;
}

int main(int count, char **words) {
    for (int at = 1; at + 3 < count; at += 4) {
        printf("%d\n", done(words + at));
    }
    return 0;
}
