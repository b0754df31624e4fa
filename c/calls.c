/* calls.c: the calls of cedar.h over one handle. Each checks its arguments, and makes the call of the proved part. */
#include "calls.h"

#include <string.h>

/* The address of no bytes: the proved part takes no null address. Nobody reads or writes there. */
static char nowhere;

static const void *at_of(cedar_bytes bytes) { return bytes.at ? bytes.at : &nowhere; }

/* The buffer that the proved part writes to: that of the caller, or one without room. */
static cedar_buffer room_of(const cedar_buffer *text) {
    bool has_room = text && text->at;
    return (cedar_buffer){has_room ? text->at : &nowhere, has_room ? text->room : 0, 0};
}

/* Passes a status on, and how much was written. */
static uint32_t given(uint32_t status, cedar_buffer *text, size_t written) {
    if (text) {
        text->written = written;
    }
    return status;
}

static bool is_request(const cedar_request *it) {
    return it && it->size == sizeof *it && cedar_are_bytes(it->principal_type) && cedar_are_bytes(it->principal_id)
        && cedar_are_bytes(it->action_type) && cedar_are_bytes(it->action_id) && cedar_are_bytes(it->resource_type)
        && cedar_are_bytes(it->resource_id) && cedar_are_bytes(it->context);
}

uint32_t cedar_abi_version(void) { return cedar_raw_abi_version(); }

uint32_t cedar_version(cedar_buffer *text) {
    if (!cedar_is_room(text)) {
        return given(CEDAR_ARGUMENT, text, 0);
    }
    cedar_buffer room = room_of(text);
    uint32_t status = cedar_raw_version(room.at, room.room, &room.written);
    return given(status, text, room.written);
}

const char *cedar_status_text(uint32_t status) {
    static const char *const TEXTS[] = {"done", "out of memory", "a file is refused", "the policies have faults", "a wrong argument",
                                        "nothing was published", "the buffer is too small", "the request is refused",
                                        "the engine is closed", "a part of the report was written"};
    return status < sizeof TEXTS / sizeof *TEXTS ? TEXTS[status] : "an unknown status";
}

uint32_t cedar_new(cedar_engine *engine) {
    if (!engine) {
        return CEDAR_ARGUMENT;
    }
    engine->at = NULL;
    return cedar_handle_new(engine);
}

void cedar_free(cedar_engine *engine) {
    if (engine) {
        cedar_handle_free(engine);
        engine->at = NULL;
    }
}

uint32_t cedar_share(cedar_engine *engine, cedar_engine *other) {
    cedar_engine *handle = cedar_handle_of(engine), *second = cedar_handle_of(other);
    bool are_two = handle && second && handle->at != second->at;
    return are_two ? cedar_raw_share(handle, second) : CEDAR_ARGUMENT;
}

uint32_t cedar_kept_changes(cedar_engine *engine, uint64_t *count) {
    cedar_engine *handle = cedar_handle_of(engine);
    uint64_t kept = 0;
    uint32_t status = handle && count ? cedar_raw_kept_changes(handle, &kept) : CEDAR_ARGUMENT;
    if (count) {
        *count = status == CEDAR_OK ? kept : 0;
    }
    return status;
}

uint32_t cedar_publish(cedar_engine *engine, const cedar_files *files, cedar_refusal *refusal, cedar_buffer *text) {
    cedar_engine *handle = cedar_handle_of(engine);
    if (!handle || !cedar_are_files(files) || !cedar_is_refusal(refusal) || !cedar_is_room(text)) {
        return given(CEDAR_ARGUMENT, text, 0);
    }
    cedar_publication publication = {CEDAR_ALL_FILES, *files, {NULL, 0}};
    return cedar_publish_this(handle, &publication, refusal, text);
}

uint32_t cedar_publish_entities(cedar_engine *engine, cedar_bytes entities, cedar_refusal *refusal, cedar_buffer *text) {
    cedar_engine *handle = cedar_handle_of(engine);
    if (!handle || !cedar_are_bytes(entities) || !cedar_is_refusal(refusal) || !cedar_is_room(text)) {
        return given(CEDAR_ARGUMENT, text, 0);
    }
    cedar_publication publication = {.kind = CEDAR_NEW_ENTITIES, .files = {.entities = entities}};
    return cedar_publish_this(handle, &publication, refusal, text);
}

uint32_t cedar_publish_changes(cedar_engine *engine, cedar_bytes changes, cedar_refusal *refusal, cedar_buffer *text) {
    cedar_engine *handle = cedar_handle_of(engine);
    if (!handle || !cedar_are_bytes(changes) || !cedar_is_refusal(refusal) || !cedar_is_room(text)) {
        return given(CEDAR_ARGUMENT, text, 0);
    }
    cedar_publication publication = {.kind = CEDAR_SOME_CHANGES, .changes = changes};
    return cedar_publish_this(handle, &publication, refusal, text);
}

uint32_t cedar_validate(const cedar_files *files, cedar_buffer *text) {
    if (!cedar_are_files(files) || !cedar_is_room(text)) {
        return given(CEDAR_ARGUMENT, text, 0);
    }
    cedar_buffer room = room_of(text);
    uint32_t status = cedar_raw_validate(at_of(files->schema), files->schema.length, at_of(files->policies), files->policies.length,
                                         at_of(files->links), files->links.length, files->settings, room.at, room.room, &room.written);
    return given(status, text, room.written);
}

uint32_t cedar_validate_part(const cedar_files *files, cedar_report_place *place, cedar_refusal *refusal, cedar_buffer *text) {
    bool has_place = place && place->size == sizeof *place;
    if (!has_place || !cedar_are_files(files) || !cedar_is_refusal(refusal) || !cedar_is_room(text)) {
        return given(CEDAR_ARGUMENT, text, 0);
    }
    cedar_raw_report_place raw = {place->policy, place->faults, place->warnings, place->lines};
    cedar_buffer room = room_of(text);
    uint32_t status = cedar_raw_validate_part(at_of(files->schema), files->schema.length, at_of(files->policies), files->policies.length,
                                              at_of(files->links), files->links.length, files->settings, &raw, room.at, room.room,
                                              &room.written);
    *place = (cedar_report_place){sizeof *place, raw.policy, raw.faults, raw.warnings, raw.lines};
    return cedar_say_which(given(status, text, room.written), files, refusal);
}

uint32_t cedar_explain(const cedar_files *files, uint32_t format, cedar_buffer *text) {
    if (!cedar_are_files(files) || !cedar_is_room(text)) {
        return given(CEDAR_ARGUMENT, text, 0);
    }
    cedar_buffer room = room_of(text);
    uint32_t status = cedar_raw_explain(at_of(files->schema), files->schema.length, at_of(files->policies), files->policies.length,
                                        at_of(files->links), files->links.length, at_of(files->entities), files->entities.length,
                                        files->settings, format, room.at, room.room, &room.written);
    return given(status, text, room.written);
}

uint32_t cedar_explain_changes_in(cedar_bytes schema, cedar_bytes changes, uint32_t settings, uint32_t number, uint32_t format,
                                  cedar_buffer *text) {
    if (!cedar_are_bytes(schema) || !cedar_are_bytes(changes) || !cedar_is_room(text)) {
        return given(CEDAR_ARGUMENT, text, 0);
    }
    cedar_buffer room = room_of(text);
    uint32_t status = cedar_raw_explain_changes_in(at_of(schema), schema.length, at_of(changes), changes.length, settings, number, format,
                                                   room.at, room.room, &room.written);
    return given(status, text, room.written);
}

uint32_t cedar_explain_changes(cedar_bytes schema, cedar_bytes changes, uint32_t number, uint32_t format, cedar_buffer *text) {
    return cedar_explain_changes_in(schema, changes, 0, number, format, text);
}

uint32_t cedar_explain_line(cedar_engine *engine, cedar_bytes line, uint32_t kind, uint32_t number, uint32_t format, cedar_buffer *text) {
    cedar_engine *handle = cedar_handle_of(engine);
    if (!handle || !cedar_are_bytes(line) || !cedar_is_room(text)) {
        return given(CEDAR_ARGUMENT, text, 0);
    }
    cedar_buffer room = room_of(text);
    uint32_t status = cedar_raw_explain_line(handle, at_of(line), line.length, kind, number, format, room.at, room.room, &room.written);
    return given(status, text, room.written);
}

/* Calls of the proved part that answer lines. */
typedef uint32_t answering(cedar_engine *engine, const void *lines, size_t length, void *text, size_t room, size_t *written);

static uint32_t answer(answering *call, cedar_engine *engine, cedar_bytes lines, cedar_buffer *text) {
    cedar_engine *handle = cedar_handle_of(engine);
    if (!handle || !cedar_are_bytes(lines) || !cedar_is_room(text)) {
        return given(CEDAR_ARGUMENT, text, 0);
    }
    cedar_buffer room = room_of(text);
    uint32_t status = call(handle, at_of(lines), lines.length, room.at, room.room, &room.written);
    return given(status, text, room.written);
}

uint32_t cedar_answer(cedar_engine *engine, cedar_bytes lines, cedar_buffer *text) { return answer(cedar_raw_answer, engine, lines, text); }

uint32_t cedar_answer_with_entities(cedar_engine *engine, cedar_bytes lines, cedar_buffer *text) {
    return answer(cedar_raw_answer_with_entities, engine, lines, text);
}

uint32_t cedar_answer_line(cedar_engine *engine, cedar_bytes line, cedar_buffer *text) {
    return answer(cedar_raw_answer_line, engine, line, text);
}

/* Decides a request whose parts have addresses. */
static uint32_t decide(cedar_engine *engine, const cedar_request *it, cedar_raw_decision *decision, cedar_buffer *room) {
    return cedar_raw_decide(engine, at_of(it->principal_type), it->principal_type.length, at_of(it->principal_id), it->principal_id.length,
                            at_of(it->action_type), it->action_type.length, at_of(it->action_id), it->action_id.length,
                            at_of(it->resource_type), it->resource_type.length, at_of(it->resource_id), it->resource_id.length,
                            at_of(it->context), it->context.length, decision, room->at, room->room, &room->written);
}

uint32_t cedar_decide(cedar_engine *engine, const cedar_request *request, cedar_decision *decision, cedar_buffer *text) {
    bool has_decision = decision && decision->size == sizeof *decision;
    cedar_raw_decision raw = {0, 0};
    cedar_buffer room = room_of(text);
    cedar_engine *handle = cedar_handle_of(engine);
    uint32_t status = CEDAR_ARGUMENT;
    if (has_decision && handle && is_request(request) && cedar_is_room(text)) {
        status = decide(handle, request, &raw, &room);
    }
    if (has_decision) {
        decision->allow = status == CEDAR_OK && raw.allow == 1;
        decision->refused = status == CEDAR_NO_REQUEST ? raw.refused : 0;
    }
    return given(status, text, room.written);
}

/* Writes bytes to a place, where there is one, and returns how many they are. */
static size_t put(char *to, const void *from, size_t length) {
    if (to && length) {
        memcpy(to, from, length);
    }
    return length;
}

/* Writes bytes as a JSON string: those that need none without an escape, as many at a time as there are. */
static size_t put_string(char *to, cedar_bytes text) {
    static const char DIGITS[] = "0123456789abcdef";
    const unsigned char *bytes = text.at;
    size_t at = put(to, "\"", 1), plain = 0;
    for (size_t i = 0; i < text.length; i++) {
        unsigned char byte = bytes[i];
        if (byte < 0x20 || byte == '"' || byte == '\\') {
            char escape[] = {'\\', 'u', '0', '0', DIGITS[byte >> 4], DIGITS[byte & 15]};
            at += put(to ? to + at : NULL, bytes + plain, i - plain);
            at += put(to ? to + at : NULL, escape, sizeof escape);
            plain = i + 1;
        }
    }
    at += put(to ? to + at : NULL, text.length ? bytes + plain : NULL, text.length - plain);
    return at + put(to ? to + at : NULL, "\"", 1);
}

/* Writes a request by parts as the request line that denotes the same, and returns its length. */
static size_t put_line(char *to, const cedar_request *it) {
    const struct {
        const char *before;
        cedar_bytes text;
    } parts[] = {{"{\"principal\":{\"type\":", it->principal_type}, {",\"id\":", it->principal_id},
                 {"},\"action\":{\"type\":", it->action_type},      {",\"id\":", it->action_id},
                 {"},\"resource\":{\"type\":", it->resource_type},  {",\"id\":", it->resource_id}};
    size_t at = 0;
    for (size_t i = 0; i < sizeof parts / sizeof *parts; i++) {
        at += put(to ? to + at : NULL, parts[i].before, strlen(parts[i].before));
        at += put_string(to ? to + at : NULL, parts[i].text);
    }
    at += put(to ? to + at : NULL, it->context.length ? "},\"context\":" : "}", it->context.length ? 12 : 1);
    at += put(to ? to + at : NULL, it->context.at, it->context.length);
    return at + put(to ? to + at : NULL, "}", 1);
}

uint32_t cedar_explain_request(cedar_engine *engine, const cedar_request *request, uint32_t number, uint32_t format, cedar_buffer *text) {
    cedar_engine *handle = cedar_handle_of(engine);
    if (!handle || !is_request(request) || !cedar_is_room(text)) {
        return given(CEDAR_ARGUMENT, text, 0);
    }
    size_t length = put_line(NULL, request);
    cedar_tried tried = rattle_alloc(length, 1);
    if (!tried.ok) {
        return given(CEDAR_MEMORY, text, 0);
    }
    put_line(tried.at, request);
    uint32_t status = cedar_explain_line(engine, (cedar_bytes){tried.at, length}, CEDAR_LINE, number, format, text);
    rattle_dealloc(tried.at);
    return status;
}
