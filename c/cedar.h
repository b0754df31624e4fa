/* cedar.h: the engine of Bobbinjade for C, C++, and each language that calls C. docs/EMBEDDING.md has examples; the statuses are below.
 *
 * A cedar_shared is an engine for any number of threads: each may ask it at any time, also while one publishes to it. Most programs need
 * nothing else. It is described at cedar_shared_new.
 *
 * A handle, cedar_engine, is what one thread asks. cedar_new makes a handle that leads nowhere, cedar_publish has it lead to an engine of
 * the given files, cedar_publish_entities has it lead to one of the same policies over other entities, cedar_publish_changes to one over
 * changed entities, cedar_share has a second handle lead to the same engine, and cedar_free frees a handle. The last handle frees the
 * engine.
 *
 * Threads: one call at a time uses a handle. Different handles may be used at the same time, also where they share an engine. A handle
 * may move to another thread, if a lock, a start or a join orders that. Publishing to a handle changes nothing for the handles that
 * shared with it before: they lead to the engine that they led to.
 *
 * Arguments: a call checks them, and returns CEDAR_ARGUMENT where a handle, a struct or an address is null that may not be, where bytes or
 * a buffer have a length without an address, and where the size of a struct is not known. It has done nothing then.
 *
 * Memory: a call reads its bytes only while it runs, and keeps none of them. No argument that is written overlaps another. The
 * library asks malloc, realloc and free for memory (c/heap.c). A call that returns CEDAR_MEMORY has changed nothing.
 *
 * Copies: a copy of a cedar_engine is the same handle. Once cedar_free was called for one of them, the others return CEDAR_ARGUMENT, and
 * cedar_free leaves them alone.
 *
 * Stack: 512 KiB for the calls that publish, change, validate, share, free or explain, 64 KiB for the other calls. Do not call from a signal
 * handler, nor in the forked child of a process with several threads. No call starts a thread or reads a file, and only calls over a
 * cedar_shared wait, as is said there. */
#ifndef CEDAR_H
#define CEDAR_H
#include <stddef.h>
#include <stdint.h>
#ifdef __cplusplus
extern "C" {
#endif

/* The version of the engine with which this header is, and of its interface, which cedar_abi_version returns. */
#define CEDAR_VERSION_MAJOR 0
#define CEDAR_VERSION_MINOR 1
#define CEDAR_VERSION_PATCH 0
#define CEDAR_ABI_VERSION 1

/* The statuses. */
enum {
    CEDAR_OK = 0,         /* done */
    CEDAR_MEMORY = 1,     /* out of memory: never a decision, and all is as before */
    CEDAR_REFUSED = 2,    /* a file is refused: cedar_refusal says which, and why */
    CEDAR_FAULTS = 3,     /* the policies have faults: the text is the report */
    CEDAR_ARGUMENT = 4,   /* null where something has to be, another size of a struct, an unknown setting, format or kind */
    CEDAR_NO_ENGINE = 5,  /* nothing was published */
    CEDAR_ROOM = 6,       /* the buffer is too small: `written` is the room that is needed, and the buffer is as before */
    CEDAR_NO_REQUEST = 7, /* the request to be decided is refused, with the number in `refused` */
    CEDAR_CLOSED = 8,     /* the shared engine was closed */
    CEDAR_MORE = 9        /* a part of the report was written, and there is more */
};

/* The files of a refusal. Changes of entities are refused as the entities. */
enum { CEDAR_SCHEMA = 1, CEDAR_POLICIES = 2, CEDAR_LINKS = 3, CEDAR_ENTITIES = 4 };

/* The settings of cedar_files, as a sum. CEDAR_ANY_DECIMAL: decimal(..) accepts any string, and may fail when a request is answered.
 * CEDAR_LANGUAGE_4: the schema and the policies are in the language of Cedar 4, as `cedar --language 4` reads them; without it they are in
 * the default language. Entities and requests are read according to the schema. */
enum { CEDAR_ANY_DECIMAL = 1, CEDAR_LANGUAGE_4 = 2 };

/* The formats of an explanation: words for people, or a JSON object on each line. */
enum { CEDAR_WORDS = 0, CEDAR_JSON = 1 };

/* The kinds of request lines: one, or one that may bring entities. */
enum { CEDAR_LINE = 0, CEDAR_LINE_WITH_ENTITIES = 1 };

/* What cedar_refusal wants beside the numbers. */
enum { CEDAR_WANTS_WORDS = 1 };

/* The offset of a refusal that has no place. */
#define CEDAR_NO_OFFSET UINT64_MAX

/* The lines of a cedar_report_place without a limit. */
#define CEDAR_ALL_LINES UINT64_MAX

/* Bytes that a call reads. `at` may be null where the length is 0, and only there. */
typedef struct cedar_bytes {
    const void *at;
    size_t length;
} cedar_bytes;

/* Room for a text that a call writes. `written` is the length of the text, or with CEDAR_ROOM the room that it needs. `at` may be null
 * where the room is 0, and only there. A null cedar_buffer has no room. */
typedef struct cedar_buffer {
    void *at;
    size_t room;
    size_t written;
} cedar_buffer;

/* A handle. Only cedar_new sets it, and only cedar_free sets it to null. What `at` has is not an address. */
typedef struct cedar_engine {
    void *at;
} cedar_engine;

/* An engine for any number of threads. */
typedef struct cedar_shared cedar_shared;

/* Structs begin with their `size`. A later version may have more fields at the end: it takes a struct of an earlier size as one without
 * them. A size that a version does not know is CEDAR_ARGUMENT. */

/* The files of an engine. `links` of no bytes means that there is no file of links. */
typedef struct cedar_files {
    size_t size; /* sizeof (cedar_files) */
    cedar_bytes schema, policies, links, entities;
    uint32_t settings;
    uint32_t reserved; /* 0 */
} cedar_files;

/* Why a file is refused: the file, the number of docs/REFUSALS.md, and the offset in bytes or CEDAR_NO_OFFSET.
 *
 * The fields from `wants` on may be left out: `size` is then the offset of `wants`. With CEDAR_WANTS_WORDS a call that returns CEDAR_REFUSED
 * or CEDAR_FAULTS has the rest, too: the line from 1, or 0 where there is no place; the text that the program prints to standard output; and
 * the words that it prints to standard error. Both belong to the library: cedar_refusal_free frees them, and each call takes them for
 * freed. They end with a byte 0, which is not counted. */
typedef struct cedar_refusal {
    size_t size; /* sizeof (cedar_refusal) */
    uint32_t file, number;
    uint64_t offset;
    uint32_t wants; /* 0, or CEDAR_WANTS_WORDS */
    uint32_t reserved;
    uint64_t line;
    cedar_bytes text, words;
} cedar_refusal;

/* A request by parts: types such as Shop::User, ids without quotes, and a JSON object or no bytes as the context. */
typedef struct cedar_request {
    size_t size; /* sizeof (cedar_request) */
    cedar_bytes principal_type, principal_id, action_type, action_id, resource_type, resource_id, context;
} cedar_request;

/* A decision: `allow` is 1 or 0, and `refused` is 0 or the number for which the request is refused. */
typedef struct cedar_decision {
    size_t size; /* sizeof (cedar_decision) */
    uint32_t allow, refused;
} cedar_decision;

/* How far a report has been written: where cedar_validate_part goes on. It begins with 0 in each field but `size` and `lines`. A copy of it is
 * the same place. */
typedef struct cedar_report_place {
    size_t size;       /* sizeof (cedar_report_place) */
    uint64_t policy;   /* how many policies have been reported on */
    uint64_t faults;   /* how many faults they have */
    uint64_t warnings; /* how many warnings */
    uint64_t lines;    /* how many lines of faults and warnings may still be written, or CEDAR_ALL_LINES. After them only the counts go on */
} cedar_report_place;

/* The version of the interface of the library. It is CEDAR_ABI_VERSION, or the library does not fit this header. */
uint32_t cedar_abi_version(void);

/* Writes the version of the engine, for example 0.1.0. */
uint32_t cedar_version(cedar_buffer *text);

/* What a status means, in a few words. */
const char *cedar_status_text(uint32_t status);

/* Makes an engine for any number of threads, to which nothing was published. With another status than CEDAR_OK it is null.
 *
 * Any number of threads may make the calls below at the same time, but for cedar_shared_free. A call that asks takes no lock: each running
 * call has a handle of its own, and the handles are made by those who publish. Only where more calls run at once than ever before is a
 * handle made under a lock, which is held for nothing longer. At most 64 handles are kept.
 *
 * Calls that publish wait for one another. A call is answered by a version that was current while it ran. After a call that publishes has returned, the new version is current.
 * The old one is freed with its last call, on the thread of that call. */
uint32_t cedar_shared_new(cedar_shared **shared);

/* Counts one more owner, who calls cedar_shared_free once more. */
void cedar_shared_retain(cedar_shared *shared);

/* Takes away an owner. The last one frees the engine: no call of another thread may run or begin then. Null is left alone. */
void cedar_shared_free(cedar_shared *shared);

/* Frees all that no running call uses. Later calls return CEDAR_CLOSED. It may be called at any time, and twice. */
void cedar_shared_close(cedar_shared *shared);

/* Reads and validates files, and makes an engine of them current. Calls that ask do not wait for it. With another status than CEDAR_OK
 * nothing has changed. `refusal` and `text` are as for cedar_publish, and may be null. */
uint32_t cedar_shared_publish(cedar_shared *shared, const cedar_files *files, cedar_refusal *refusal, cedar_buffer *text);

/* Reads entities, and makes an engine over them current: of the same schema, policies, links and settings, which are not read again.
 * Publishers that read entities or changes come one after another; cedar_shared_publish reads meanwhile, and waits with its swap. */
uint32_t cedar_shared_publish_entities(cedar_shared *shared, cedar_bytes entities, cedar_refusal *refusal, cedar_buffer *text);

/* Reads changes of entities, as cedar_publish_changes does, and makes an engine over the entities after them current. */
uint32_t cedar_shared_publish_changes(cedar_shared *shared, cedar_bytes changes, cedar_refusal *refusal, cedar_buffer *text);

/* Says how many changes of entities the current engine keeps, as cedar_kept_changes does. */
uint32_t cedar_shared_kept_changes(cedar_shared *shared, uint64_t *count);

/* Makes another engine, of the same policies, over the entities after changes. The first one is as before, and calls that publish to it do
 * not wait. With another status than CEDAR_OK the other one is null. */
uint32_t cedar_shared_with_changes(cedar_shared *shared, cedar_bytes changes, cedar_shared **other, cedar_refusal *refusal,
                                   cedar_buffer *text);

/* These are the calls of the same names over one handle, over the version that is current. */
uint32_t cedar_shared_decide(cedar_shared *shared, const cedar_request *request, cedar_decision *decision, cedar_buffer *text);
uint32_t cedar_shared_answer(cedar_shared *shared, cedar_bytes lines, cedar_buffer *text);
uint32_t cedar_shared_answer_with_entities(cedar_shared *shared, cedar_bytes lines, cedar_buffer *text);
uint32_t cedar_shared_answer_line(cedar_shared *shared, cedar_bytes line, cedar_buffer *text);
uint32_t cedar_shared_explain_line(cedar_shared *shared, cedar_bytes line, uint32_t kind, uint32_t number, uint32_t format,
                                   cedar_buffer *text);
uint32_t cedar_shared_explain_request(cedar_shared *shared, const cedar_request *request, uint32_t number, uint32_t format,
                                      cedar_buffer *text);

/* Makes a handle that leads nowhere. With another status than CEDAR_OK the handle is null. */
uint32_t cedar_new(cedar_engine *engine);

/* Frees a handle and sets it to null. A handle that is null is left alone, and so is a copy of one that was freed: freeing twice is safe. */
void cedar_free(cedar_engine *engine);

/* Reads and validates the files, and has the handle lead to an engine of them. With another status than CEDAR_OK the handle leads where
 * it led. With CEDAR_REFUSED or CEDAR_FAULTS the text is what the program prints; where it does not fit, `written` is the room that it
 * needs. `refusal` and `text` may be null. */
uint32_t cedar_publish(cedar_engine *engine, const cedar_files *files, cedar_refusal *refusal, cedar_buffer *text);

/* Reads entities, and has the handle lead to an engine of the same schema, policies, links and settings over them. The policies are not
 * read again, and other handles that shared the old engine keep it. With another status than CEDAR_OK the handle leads where it led, and
 * with CEDAR_NO_ENGINE nothing was published to it. With CEDAR_REFUSED the text is what the program prints; where it does not fit,
 * `written` is the room that it needs. A handle keeps no schema, so `refusal` gets no words: cedar_explain has them, for which the schema,
 * the settings and these entities are enough. `refusal` and `text` may be null. */
uint32_t cedar_publish_entities(cedar_engine *engine, cedar_bytes entities, cedar_refusal *refusal, cedar_buffer *text);

/* Reads changes of entities, {"upsert":[entry, ..],"remove":[uid, ..]} as docs/DATA.md has them, and has the handle lead to an engine of the
 * same schema, policies, links and settings over the entities after them. Neither the policies nor the other entities are read again, and
 * other handles that shared the old engine keep it. With another status than CEDAR_OK the handle leads where it led, and with
 * CEDAR_NO_ENGINE nothing was published to it. A refusal names the entities, CEDAR_ENTITIES: the text is the line that the program prints
 * of an entities file; where it does not fit, `written` is the room that it needs. `refusal` gets no words: cedar_explain_changes has them.
 * `refusal` and `text` may be null. */
uint32_t cedar_publish_changes(cedar_engine *engine, cedar_bytes changes, cedar_refusal *refusal, cedar_buffer *text);

/* Validates the policies, and writes the report or the line of a refusal. It does not read `entities`. */
uint32_t cedar_validate(const cedar_files *files, cedar_buffer *text);

/* The same, with all that `refusal` says of a file that is refused. */
uint32_t cedar_validate_files(const cedar_files *files, cedar_refusal *refusal, cedar_buffer *text);

/* Validates the next policies, and writes what it found of them. Such calls, one after another over the same files, write the report of
 * cedar_validate in parts. Each of them reads the files anew, and nothing is kept between them: a report of policies that one does not trust
 * may be left at any part. A part ends after the policy with which its text has 65,536 bytes or more, or after 1,000 policies.
 *
 * CEDAR_MORE: there is more, so call again. The text may have no bytes. CEDAR_OK and CEDAR_FAULTS: the report has ended, and the text ends
 * with the line of totals, which `lines` does not count. Only with these three the place moves on. CEDAR_REFUSED: the text is the line of a
 * refusal, and `refusal` is as for cedar_validate_files. CEDAR_ARGUMENT is also for a place that is over the end of the policies. `refusal`
 * and `text` may be null. */
uint32_t cedar_validate_part(const cedar_files *files, cedar_report_place *place, cedar_refusal *refusal, cedar_buffer *text);

/* Frees the text and the words of a refusal, and sets them to null. */
void cedar_refusal_free(cedar_refusal *refusal);

/* Says in words why the files are refused or have faults. The text has no bytes where they are accepted. Where memory runs out it has
 * none either, and the status is CEDAR_MEMORY: the words are never cut short. */
uint32_t cedar_explain(const cedar_files *files, uint32_t format, cedar_buffer *text);

/* Says in words why changes of entities are refused: `number` is that of the refusal, and the schema that of the engine. The text is empty
 * where the number is none with which changes are refused, and where memory runs out, with CEDAR_MEMORY. */
uint32_t cedar_explain_changes(cedar_bytes schema, cedar_bytes changes, uint32_t number, uint32_t format, cedar_buffer *text);

/* The same for a schema that is read with these settings, those of the engine. cedar_explain_changes is for the settings 0. */
uint32_t cedar_explain_changes_in(cedar_bytes schema, cedar_bytes changes, uint32_t settings, uint32_t number, uint32_t format,
                                  cedar_buffer *text);

/* Says in words why a request line of this kind is refused, as `cedar authorize --explain-lines` does. The text is empty where the line is
 * not refused, or with another number than this; 0 is each number. */
uint32_t cedar_explain_line(cedar_engine *engine, cedar_bytes line, uint32_t kind, uint32_t number, uint32_t format, cedar_buffer *text);

/* Says in words why a request by parts is refused with this number. */
uint32_t cedar_explain_request(cedar_engine *engine, const cedar_request *request, uint32_t number, uint32_t format, cedar_buffer *text);

/* Has `other`, which cedar_new made, lead to the engine to which `engine` leads. The engine to which `other` led before is freed, where no
 * other handle shares it. */
uint32_t cedar_share(cedar_engine *engine, cedar_engine *other);

/* Says how many changes of entities the engine keeps, over the entities that it read as a whole: 0 after cedar_publish and
 * cedar_publish_entities. docs/DATA.md says which are kept. It takes time in proportion to the count. With another status than CEDAR_OK
 * the count is 0. */
uint32_t cedar_kept_changes(cedar_engine *engine, uint64_t *count);

/* Answers each line of `lines`, as `cedar authorize` does. */
uint32_t cedar_answer(cedar_engine *engine, cedar_bytes lines, cedar_buffer *text);

/* Answers each line of `lines`, as `cedar authorize --entities-in-lines` does: a line may have a fifth member `entities`, a list as in an
 * entities file. For this line alone they replace the entities of the engine that have their uids, or are added to them. No other line and no
 * other call sees them. */
uint32_t cedar_answer_with_entities(cedar_engine *engine, cedar_bytes lines, cedar_buffer *text);

/* Answers one line, with or without its line feed. The answer has no line feed. */
uint32_t cedar_answer_line(cedar_engine *engine, cedar_bytes line, cedar_buffer *text);

/* Decides a request. With CEDAR_OK `allow` is the decision, and with every other status it is 0. The text is the line that cedar_answer
 * would write, without its line feed. A buffer without room says that no text is wanted, which takes less time.
 *
 * The context is a JSON text of its own here. So it may be 127 levels deep, where that of a line is one level deeper in its line and refused
 * with 501. And a context that is not JSON is refused after faults of the uids (502, 503, 510, 511), in a line before them. */
uint32_t cedar_decide(cedar_engine *engine, const cedar_request *request, cedar_decision *decision, cedar_buffer *text);

/* The calls of the proved part, which the library exports, too. They check nothing: no address may be null, and each is of so many bytes as
 * are given with it. They take handles of cedar_raw_new, which all calls take, and not those of cedar_new. Programs of earlier versions make
 * them, and they stay. */
typedef struct cedar_raw_refusal {
    uint32_t file, number;
    uint64_t offset;
} cedar_raw_refusal;
typedef struct cedar_raw_decision {
    uint32_t allow, refused;
} cedar_raw_decision;
typedef struct cedar_raw_report_place {
    uint64_t policy, faults, warnings, lines;
} cedar_raw_report_place;
uint32_t cedar_raw_new(void **out);
void cedar_raw_free(cedar_engine engine);
uint32_t cedar_raw_publish(cedar_engine *engine, const void *schema, size_t schema_length, const void *policies, size_t policies_length,
                           const void *links, size_t links_length, const void *entities, size_t entities_length, uint32_t settings,
                           cedar_raw_refusal *refusal, void *text, size_t room, size_t *written);
uint32_t cedar_raw_publish_entities(cedar_engine *engine, const void *entities, size_t length, cedar_raw_refusal *refusal, void *text,
                                    size_t room, size_t *written);
uint32_t cedar_raw_publish_changes(cedar_engine *engine, const void *changes, size_t length, cedar_raw_refusal *refusal, void *text,
                                   size_t room, size_t *written);
uint32_t cedar_raw_validate(const void *schema, size_t schema_length, const void *policies, size_t policies_length, const void *links,
                            size_t links_length, uint32_t settings, void *text, size_t room, size_t *written);
uint32_t cedar_raw_validate_part(const void *schema, size_t schema_length, const void *policies, size_t policies_length, const void *links,
                                 size_t links_length, uint32_t settings, cedar_raw_report_place *place, void *text, size_t room,
                                 size_t *written);
uint32_t cedar_raw_explain(const void *schema, size_t schema_length, const void *policies, size_t policies_length, const void *links,
                           size_t links_length, const void *entities, size_t entities_length, uint32_t settings, uint32_t format,
                           void *text, size_t room, size_t *written);
uint32_t cedar_raw_explain_changes(const void *schema, size_t schema_length, const void *changes, size_t changes_length, uint32_t number,
                                   uint32_t format, void *text, size_t room, size_t *written);
uint32_t cedar_raw_explain_changes_in(const void *schema, size_t schema_length, const void *changes, size_t changes_length,
                                      uint32_t settings, uint32_t number, uint32_t format, void *text, size_t room, size_t *written);
uint32_t cedar_raw_explain_line(cedar_engine *engine, const void *line, size_t length, uint32_t kind, uint32_t number, uint32_t format,
                                void *text, size_t room, size_t *written);
uint32_t cedar_raw_kept_changes(cedar_engine *engine, uint64_t *count);
uint32_t cedar_raw_share(cedar_engine *engine, cedar_engine *other);
uint32_t cedar_raw_answer(cedar_engine *engine, const void *lines, size_t length, void *text, size_t room, size_t *written);
uint32_t cedar_raw_answer_with_entities(cedar_engine *engine, const void *lines, size_t length, void *text, size_t room, size_t *written);
uint32_t cedar_raw_answer_line(cedar_engine *engine, const void *line, size_t length, void *text, size_t room, size_t *written);
uint32_t cedar_raw_decide(cedar_engine *engine, const void *principal_type, size_t principal_type_length, const void *principal_id,
                          size_t principal_id_length, const void *action_type, size_t action_type_length, const void *action_id,
                          size_t action_id_length, const void *resource_type, size_t resource_type_length, const void *resource_id,
                          size_t resource_id_length, const void *context, size_t context_length, cedar_raw_decision *decision, void *text,
                          size_t room, size_t *written);
uint32_t cedar_raw_abi_version(void);
uint32_t cedar_raw_version(void *text, size_t room, size_t *written);

#ifdef __cplusplus
}
#endif
#endif
