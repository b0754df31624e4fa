/* What the tests in C share: the files of a folder, buffers that grow, and the count of what passed. */
#ifndef FILES_H
#define FILES_H
#include "cedar.h"

#include <stdio.h>
#include <stdlib.h>
#include <string.h>

static int passed, failed;

#define CHECK(is_right) \
    do { \
        if (is_right) { \
            passed++; \
        } else { \
            failed++; \
            printf("%s:%d: %s\n", __FILE__, __LINE__, #is_right); \
        } \
    } while (0)

/* Prints the counts, and returns the exit status. */
static inline int counted(void) {
    printf("%d passed, %d failed\n", passed, failed);
    return failed != 0;
}

/* Reads a stream to its end. */
static inline cedar_bytes read_all(FILE *file) {
    size_t room = 1 << 16, length = 0, count;
    char *at = malloc(room);
    while (at && (count = fread(at + length, 1, room - length, file)) > 0) {
        length += count;
        if (length == room) {
            at = realloc(at, room *= 2);
        }
    }
    if (!at) {
        exit(9);
    }
    return (cedar_bytes){at, length};
}

/* Reads a file of a folder. A file that is not there has no bytes. */
static inline cedar_bytes content(const char *folder, const char *name) {
    char path[4096];
    snprintf(path, sizeof path, "%s/%s", folder, name);
    FILE *file = fopen(path, "rb");
    if (!file) {
        return (cedar_bytes){NULL, 0};
    }
    cedar_bytes bytes = read_all(file);
    fclose(file);
    return bytes;
}

/* Reads the files of a folder. */
static inline cedar_files files_of(const char *folder) {
    return (cedar_files){sizeof(cedar_files), content(folder, "schema.json"), content(folder, "policies.cedar"),
                         content(folder, "links.json"), content(folder, "entities.json"), 0, 0};
}

static inline void free_files(const cedar_files *files) {
    free((void *)files->schema.at);
    free((void *)files->policies.at);
    free((void *)files->links.at);
    free((void *)files->entities.at);
}

/* Gives a buffer the room that a call needs. Returns whether the call is to be made once more. */
static inline int grows(cedar_buffer *buffer) {
    if (buffer->written <= buffer->room) {
        return 0;
    }
    buffer->room = buffer->written;
    buffer->at = realloc(buffer->at, buffer->room);
    if (!buffer->at) {
        exit(9);
    }
    return 1;
}

static inline cedar_bytes bytes_of(const char *text) { return (cedar_bytes){text, strlen(text)}; }

/* Changes that upsert each of these entities. */
static inline cedar_bytes upserts(cedar_bytes entities) {
    char *at = malloc(entities.length + 11);
    if (!at) {
        exit(9);
    }
    memcpy(at, "{\"upsert\":", 10);
    if (entities.length) {
        memcpy(at + 10, entities.at, entities.length);
    }
    at[10 + entities.length] = '}';
    return (cedar_bytes){at, entities.length + 11};
}

/* A request line that brings these entities: of `line` without its last bracket, and with spaces for the line feeds of the entities. */
static inline cedar_bytes bringing(cedar_bytes line, cedar_bytes entities) {
    static const char key[] = ",\"entities\":";
    size_t open = line.length - 1, begin = open + sizeof key - 1, end = begin + entities.length;
    char *at = malloc(end + 2);
    if (!at) {
        exit(9);
    }
    memcpy(at, line.at, open);
    memcpy(at + open, key, sizeof key - 1);
    for (size_t i = 0; i < entities.length; i++) {
        char byte = ((const char *)entities.at)[i];
        at[begin + i] = byte == '\n' ? ' ' : byte;
    }
    memcpy(at + end, "}\n", 2);
    return (cedar_bytes){at, end + 2};
}

/* Whether a buffer has this text. */
static inline int has(const cedar_buffer *buffer, cedar_bytes text) {
    return buffer->written == text.length && (text.length == 0 || memcmp(buffer->at, text.at, text.length) == 0);
}

/* The request of ann, of examples/notes, with this action. */
static inline cedar_request asked(const char *action) {
    return (cedar_request){sizeof(cedar_request), bytes_of("User"),     bytes_of("ann"),   bytes_of("Action"),
                           bytes_of(action),      bytes_of("Notebook"), bytes_of("plans"), {NULL, 0}};
}
#endif
