/* publications.c: what is published to a handle, and why it is refused, in numbers and in words. */
#include "calls.h"

#include <stdlib.h>
#include <string.h>

/* The address of no bytes: the proved part takes no null address. Nobody reads or writes there. */
static char nowhere;

static const void *at_of(cedar_bytes bytes) { return bytes.at ? bytes.at : &nowhere; }

/* A text of the library, which grows until what a call writes fits. One byte more than its room is there. */
typedef struct growing_text {
    char *at;
    size_t room, written;
} growing_text;

/* A text without room that is to get some: what most refusals need. */
static const growing_text NONE = {NULL, 0, 2048};

static void growing_text_free(growing_text *it) {
    if (it->at) {
        rattle_dealloc(it->at);
    }
    *it = (growing_text){NULL, 0, 0};
}

/* Gives a text the room that a call needs. Returns whether the call is to be made once more; without memory the status says so. */
static bool grows(growing_text *it, uint32_t *status) {
    if (it->written <= it->room) {
        return false;
    }
    size_t room = it->written;
    growing_text_free(it);
    cedar_tried tried = rattle_alloc(room + 1, 1);
    if (!tried.ok) {
        *status = CEDAR_MEMORY;
        return false;
    }
    *it = (growing_text){tried.at, room, 0};
    return true;
}

/* The text as bytes that the caller frees, with a byte 0 after them. */
static cedar_bytes bytes_of(growing_text *it) {
    if (it->at) {
        it->at[it->written] = 0;
    }
    return (cedar_bytes){it->at, it->written};
}

static bool has_words(const cedar_refusal *refusal) { return refusal && refusal->size == sizeof *refusal; }

bool cedar_is_refusal(const cedar_refusal *it) {
    return !it || it->size == offsetof(cedar_refusal, wants) || (has_words(it) && it->wants <= CEDAR_WANTS_WORDS && it->reserved == 0);
}

bool cedar_are_files(const cedar_files *it) {
    return it && it->size == sizeof *it && it->reserved == 0 && cedar_are_bytes(it->schema) && cedar_are_bytes(it->policies)
        && cedar_are_bytes(it->links) && cedar_are_bytes(it->entities);
}

void cedar_refusal_free(cedar_refusal *refusal) {
    if (!has_words(refusal)) {
        return;
    }
    growing_text text = {(char *)refusal->text.at, 0, 0}, words = {(char *)refusal->words.at, 0, 0};
    growing_text_free(&text);
    growing_text_free(&words);
    refusal->text = refusal->words = (cedar_bytes){NULL, 0};
}

/* Says why a file is refused, still without words. With another status no file is. */
static void say_why(uint32_t status, cedar_refusal *refusal, const cedar_raw_refusal *why) {
    if (refusal) {
        refusal->file = status == CEDAR_REFUSED ? why->file : 0;
        refusal->number = status == CEDAR_REFUSED ? why->number : 0;
        refusal->offset = status == CEDAR_REFUSED ? why->offset : CEDAR_NO_OFFSET;
    }
    if (has_words(refusal)) {
        refusal->line = 0;
        refusal->text = refusal->words = (cedar_bytes){NULL, 0};
    }
}

/* Publishes, with a text that fits or not. */
static uint32_t publish(cedar_engine *engine, const cedar_publication *it, cedar_raw_refusal *why, growing_text *text) {
    const cedar_files *files = &it->files;
    void *at = text->at ? text->at : &nowhere;
    switch (it->kind) {
    case CEDAR_NEW_ENTITIES:
        return cedar_raw_publish_entities(engine, at_of(files->entities), files->entities.length, why, at, text->room, &text->written);
    case CEDAR_SOME_CHANGES:
        return cedar_raw_publish_changes(engine, at_of(it->changes), it->changes.length, why, at, text->room, &text->written);
    default:
        return cedar_raw_publish(engine, at_of(files->schema), files->schema.length, at_of(files->policies), files->policies.length,
                                 at_of(files->links), files->links.length, at_of(files->entities), files->entities.length, files->settings,
                                 why, at, text->room, &text->written);
    }
}

/* Explains what is refused with a number, in a text of the library. */
static uint32_t explain(const cedar_publication *it, uint32_t number, uint32_t format, growing_text *text) {
    uint32_t status = CEDAR_OK;
    while (grows(text, &status)) {
        cedar_buffer room = {text->at, text->room, 0};
        status = it->kind == CEDAR_SOME_CHANGES
            ? cedar_explain_changes_in(it->files.schema, it->changes, it->files.settings, number, format, &room)
            : cedar_explain(&it->files, format, &room);
        text->written = room.written;
    }
    return status;
}

/* The line that an explanation in JSON names first, or 0. The keys of an object ascend, so that of the place is before those of the marks. */
static uint64_t line_of(const growing_text *text) {
    static const char KEY[] = "\"line\":";
    const char *found = text->at ? strstr(text->at, KEY) : NULL;
    if (!found || memchr(text->at, '\n', (size_t)(found - text->at))) {
        return 0;
    }
    const char *marks = strstr(text->at, "\"marks\":");
    return marks && marks < found ? 0 : strtoull(found + sizeof KEY - 1, NULL, 10);
}

/* Adds the words of what is refused or has faults, and the line. */
static uint32_t add_words(const cedar_publication *it, cedar_refusal *refusal) {
    growing_text words = NONE, json = NONE;
    uint32_t status = explain(it, refusal->number, CEDAR_WORDS, &words);
    if (status == CEDAR_OK && refusal->number) {
        status = explain(it, refusal->number, CEDAR_JSON, &json);
        bytes_of(&json);
        refusal->line = line_of(&json);
    }
    growing_text_free(&json);
    refusal->words = bytes_of(&words);
    return status;
}

/* Publishes with a text of the library, and adds the words where what is published is refused. */
static uint32_t publish_with_words(cedar_engine *engine, const cedar_publication *it, cedar_refusal *refusal, cedar_buffer *text) {
    growing_text own = NONE;
    cedar_raw_refusal why = {0, 0, CEDAR_NO_OFFSET};
    uint32_t status = CEDAR_OK;
    while (grows(&own, &status)) {
        status = publish(engine, it, &why, &own);
    }
    say_why(status, refusal, &why);
    if (status != CEDAR_REFUSED && status != CEDAR_FAULTS) {
        growing_text_free(&own);
        return status;
    }
    refusal->text = bytes_of(&own);
    uint32_t added = add_words(it, refusal);
    if (added != CEDAR_OK) {
        cedar_refusal_free(refusal);
        say_why(added, refusal, &why);
        return added;
    }
    if (text) {
        text->written = own.written;
    }
    if (text && text->room >= own.written) {
        memcpy(text->at, own.at, own.written);
    }
    return status;
}

uint32_t cedar_publish_this(cedar_engine *engine, const cedar_publication *it, cedar_refusal *refusal, cedar_buffer *text) {
    if (text) {
        text->written = 0;
    }
    if (has_words(refusal) && refusal->wants == CEDAR_WANTS_WORDS && it->files.size) {
        return publish_with_words(engine, it, refusal, text);
    }
    growing_text room = {text ? text->at : NULL, text ? text->room : 0, 0};
    cedar_raw_refusal why = {0, 0, CEDAR_NO_OFFSET};
    uint32_t status = publish(engine, it, &why, &room);
    say_why(status, refusal, &why);
    if (text) {
        text->written = room.written;
    }
    return status;
}

uint32_t cedar_say_which(uint32_t status, const cedar_files *files, cedar_refusal *refusal) {
    say_why(status, refusal, &(cedar_raw_refusal){0, 0, CEDAR_NO_OFFSET});
    if (status == CEDAR_REFUSED && refusal) {
        /* Publishing to a handle of its own says which file is refused, and why. */
        cedar_engine handle;
        status = cedar_new(&handle);
        status = status == CEDAR_OK ? cedar_publish(&handle, files, refusal, NULL) : status;
        cedar_free(&handle);
    }
    return status;
}

uint32_t cedar_validate_files(const cedar_files *files, cedar_refusal *refusal, cedar_buffer *text) {
    return cedar_is_refusal(refusal) ? cedar_say_which(cedar_validate(files, text), files, refusal) : CEDAR_ARGUMENT;
}
