/* Publishes the files of a folder, and answers requests. example FOLDER [LINKS], for example examples/notes. LINKS is a file of links. */
#include "cedar.h"

#include <stdio.h>
#include <stdlib.h>
#include <string.h>

static cedar_bytes bytes(const char *text) { return (cedar_bytes){text, strlen(text)}; }

/* Reads a file. One that cannot be read ends the example: no bytes in its place would be other policies. */
static cedar_bytes whole(const char *path) {
    FILE *file = fopen(path, "rb");
    if (!file) {
        perror(path);
        exit(1);
    }
    fseek(file, 0, SEEK_END);
    size_t length = (size_t)ftell(file);
    rewind(file);
    char *at = malloc(length + 1);
    if (!at || fread(at, 1, length, file) != length) {
        exit(1);
    }
    fclose(file);
    return (cedar_bytes){at, length};
}

/* Reads a file of the folder. */
static cedar_bytes content(const char *folder, const char *name) {
    char path[4096];
    snprintf(path, sizeof path, "%s/%s", folder, name);
    return whole(path);
}

/* Reads the links, where there is a file of them. One of no bytes is refused, since the library takes it for no file. */
static cedar_bytes links_of(const char *path) {
    cedar_bytes links = path ? whole(path) : (cedar_bytes){NULL, 0};
    if (path && links.length == 0) {
        fprintf(stderr, "%s: a file of links has a list\n", path);
        exit(1);
    }
    return links;
}

/* Prints why something is refused, and frees the words. */
static void print_why(uint32_t status, cedar_refusal *why) {
    if (why->words.at) {
        fwrite(why->words.at, 1, why->words.length, stderr);
    } else {
        fprintf(stderr, "%s\n", cedar_status_text(status));
    }
    cedar_refusal_free(why);
}

int main(int count, char **words) {
    if (count != 2 && count != 3) {
        return 4;
    }
    cedar_files files = {sizeof files, content(words[1], "schema.json"), content(words[1], "policies.cedar"),
                         links_of(count == 3 ? words[2] : NULL), content(words[1], "entities.json"), 0, 0};
    cedar_shared *engine;
    cedar_refusal why = {.size = sizeof why, .wants = CEDAR_WANTS_WORDS};
    uint32_t status = cedar_shared_new(&engine);
    if (status == CEDAR_OK) {
        status = cedar_shared_publish(engine, &files, &why, NULL);
    }
    if (status != CEDAR_OK) {
        print_why(status, &why);
        return (int)status;
    }

    /* One request by parts. Any thread may ask, also while another publishes. Only CEDAR_OK with `allow` is an allow. */
    cedar_request request = {sizeof request, {"User", 4}, {"ann", 3}, {"Action", 6}, {"write", 5}, {"Notebook", 8}, {"plans", 5}, {NULL, 0}};
    cedar_decision decision = {sizeof decision, 0, 0};
    status = cedar_shared_decide(engine, &request, &decision, NULL);
    printf("%s\n", status == CEDAR_OK && decision.allow ? "allow" : "deny");

    /* All request lines of the folder, as `cedar authorize` answers them. */
    cedar_bytes lines = content(words[1], "requests.jsonl");
    cedar_buffer answers = {NULL, 0, 0};
    while ((status = cedar_shared_answer(engine, lines, &answers)) == CEDAR_ROOM) {
        answers.room = answers.written;
        answers.at = realloc(answers.at, answers.room);
        if (!answers.at) {
            return 1;
        }
    }
    fwrite(answers.at, 1, answers.written, stdout);
    free(answers.at);

    /* Entities that changed are read alone, and the policies are not read again. If they are refused, nothing has changed. */
    cedar_bytes entities = content(words[1], "entities.json");
    status = cedar_shared_publish_entities(engine, entities, &why, NULL);
    if (status != CEDAR_OK) {
        print_why(status, &why);
    }

    /* One user is stored, and another is gone. What the changes do not name stays as it is. */
    cedar_bytes changes = bytes("{\"upsert\":[{\"uid\":{\"type\":\"User\",\"id\":\"dora\"}}],\"remove\":[{\"type\":\"User\",\"id\":\"bob\"}]}");
    status = cedar_shared_publish_changes(engine, changes, &why, NULL);
    if (status != CEDAR_OK) {
        print_why(status, &why);
    }

    /* A request that brings its entities: an engine over changes is made, asked and freed. No other request sees these entities. */
    cedar_shared *once;
    changes = bytes("{\"upsert\":[{\"uid\":{\"type\":\"User\",\"id\":\"ann\"}}]}");
    if (cedar_shared_with_changes(engine, changes, &once, NULL, NULL) == CEDAR_OK) {
        status = cedar_shared_decide(once, &request, &decision, NULL);
        printf("%s\n", status == CEDAR_OK && decision.allow ? "allow" : "deny");
        cedar_shared_free(once);
    }

    /* A request line that brings its entities. No other line sees them. */
    cedar_bytes line = bytes("{\"principal\":\"User::\\\"ann\\\"\",\"action\":\"Action::\\\"write\\\"\","
                             "\"resource\":\"Notebook::\\\"plans\\\"\",\"entities\":[{\"uid\":{\"type\":\"User\",\"id\":\"ann\"}}]}\n");
    char room[512];
    cedar_buffer answer = {room, sizeof room, 0};
    status = cedar_shared_answer_with_entities(engine, line, &answer);
    if (status == CEDAR_OK) {
        fwrite(answer.at, 1, answer.written, stdout);
    }
    cedar_shared_free(engine);

    /* Policies of others: their report comes in parts, and may be left at any of them. After 100 lines only the counts go on. */
    cedar_report_place place = {.size = sizeof place, .lines = 100};
    cedar_buffer part = {NULL, 0, 0};
    do {
        status = cedar_validate_part(&files, &place, NULL, &part);
        if (status != CEDAR_ROOM) {
            fwrite(part.at, 1, part.written, stdout);
        } else if (!(part.at = realloc(part.at, part.room = part.written))) {
            return 1;
        }
    } while (status == CEDAR_MORE || status == CEDAR_ROOM);
    free(part.at);
    const cedar_bytes read[] = {files.schema, files.policies, files.links, files.entities, entities, lines};
    for (size_t i = 0; i < sizeof read / sizeof *read; i++) {
        free((void *)read[i].at);
    }
    return (int)status;
}
