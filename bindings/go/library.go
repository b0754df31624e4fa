package bobbinjade

/*
#cgo LDFLAGS: -lcedar
#include <cedar.h>

// What a call gives, so that it writes nothing to memory of Go but the text.
typedef struct outcome {
    uint32_t status, allow, refused;
    size_t written;
} outcome;

// The parts of a call are strings, since a struct that Go passes to C may have no addresses of memory of Go.
static cedar_bytes bytes_of(_GoString_ text) { return (cedar_bytes){_GoStringPtr(text), _GoStringLen(text)}; }

static cedar_files files_of(_GoString_ schema, _GoString_ policies, _GoString_ links, _GoString_ entities, uint32_t settings) {
    return (cedar_files){sizeof(cedar_files), bytes_of(schema), bytes_of(policies), bytes_of(links), bytes_of(entities), settings, 0};
}

static cedar_request request_of(_GoString_ principal_type, _GoString_ principal_id, _GoString_ action_type, _GoString_ action_id,
                                _GoString_ resource_type, _GoString_ resource_id, _GoString_ context) {
    return (cedar_request){sizeof(cedar_request),    bytes_of(principal_type), bytes_of(principal_id), bytes_of(action_type),
                           bytes_of(action_id),      bytes_of(resource_type),  bytes_of(resource_id),  bytes_of(context)};
}

static uint32_t publish(void *shared, _GoString_ schema, _GoString_ policies, _GoString_ links, _GoString_ entities,
                        uint32_t settings, cedar_refusal *why) {
    cedar_files files = files_of(schema, policies, links, entities, settings);
    return cedar_shared_publish(shared, &files, why, NULL);
}

static uint32_t publish_entities(void *shared, _GoString_ entities, cedar_refusal *why) {
    return cedar_shared_publish_entities(shared, bytes_of(entities), why, NULL);
}

static uint32_t publish_changes(void *shared, _GoString_ changes, cedar_refusal *why) {
    return cedar_shared_publish_changes(shared, bytes_of(changes), why, NULL);
}

static uint32_t with_changes(void *shared, _GoString_ changes, cedar_shared **other, cedar_refusal *why) {
    return cedar_shared_with_changes(shared, bytes_of(changes), other, why, NULL);
}

// A part of a report: what a call gives, and the place after it.
typedef struct part {
    outcome gives;
    cedar_report_place place;
} part;

static part validate_part(_GoString_ schema, _GoString_ policies, _GoString_ links, uint32_t settings, cedar_report_place place,
                          cedar_refusal *why, char *text, size_t room) {
    cedar_files files = {sizeof files, bytes_of(schema), bytes_of(policies), bytes_of(links), {NULL, 0}, settings, 0};
    cedar_buffer buffer = {text, room, 0};
    cedar_refusal_free(why);
    uint32_t status = cedar_validate_part(&files, &place, why, &buffer);
    return (part){{status, 0, 0, buffer.written}, place};
}

typedef struct counted {
    uint32_t status;
    uint64_t count;
} counted;

static counted kept_changes(void *shared) {
    counted gives = {0, 0};
    gives.status = cedar_shared_kept_changes(shared, &gives.count);
    return gives;
}

// Validates or explains files.
static outcome check(_GoString_ schema, _GoString_ policies, _GoString_ links, _GoString_ entities, uint32_t settings, cedar_refusal *why,
                     char *text, size_t room) {
    cedar_files files = files_of(schema, policies, links, entities, settings);
    cedar_buffer buffer = {text, room, 0};
    cedar_refusal_free(why);
    uint32_t status = why ? cedar_validate_files(&files, why, &buffer) : cedar_explain(&files, CEDAR_WORDS, &buffer);
    return (outcome){status, 0, 0, buffer.written};
}

// Decides a request, with a text of the caller.
static outcome decide(void *shared, _GoString_ principal_type, _GoString_ principal_id, _GoString_ action_type, _GoString_ action_id,
                      _GoString_ resource_type, _GoString_ resource_id, _GoString_ context, char *text, size_t room) {
    cedar_request request = request_of(principal_type, principal_id, action_type, action_id, resource_type, resource_id, context);
    cedar_decision decision = {sizeof decision, 0, 0};
    cedar_buffer buffer = {text, room, 0};
    uint32_t status = cedar_shared_decide(shared, &request, &decision, &buffer);
    return (outcome){status, decision.allow, decision.refused, buffer.written};
}

static outcome explain_request(void *shared, _GoString_ principal_type, _GoString_ principal_id, _GoString_ action_type,
                               _GoString_ action_id, _GoString_ resource_type, _GoString_ resource_id, _GoString_ context, uint32_t number,
                               char *text, size_t room) {
    cedar_request request = request_of(principal_type, principal_id, action_type, action_id, resource_type, resource_id, context);
    cedar_buffer buffer = {text, room, 0};
    uint32_t status = cedar_shared_explain_request(shared, &request, number, CEDAR_WORDS, &buffer);
    return (outcome){status, 0, 0, buffer.written};
}

// What is asked with lines: answers to them, to one, or to lines that may bring entities; or words for one, or for one that may bring some.
enum { LINES, ONE_LINE, LINES_WITH_ENTITIES, WORDS_OF_LINE, WORDS_OF_LINE_WITH_ENTITIES };

static outcome ask(void *shared, int what, _GoString_ lines, char *text, size_t room) {
    cedar_buffer buffer = {text, room, 0};
    cedar_bytes given = bytes_of(lines);
    uint32_t kind = what == WORDS_OF_LINE ? CEDAR_LINE : CEDAR_LINE_WITH_ENTITIES;
    uint32_t status = what == LINES              ? cedar_shared_answer(shared, given, &buffer)
                    : what == ONE_LINE            ? cedar_shared_answer_line(shared, given, &buffer)
                    : what == LINES_WITH_ENTITIES ? cedar_shared_answer_with_entities(shared, given, &buffer)
                                                  : cedar_shared_explain_line(shared, given, kind, 0, CEDAR_WORDS, &buffer);
    return (outcome){status, 0, 0, buffer.written};
}

static outcome version(char *text, size_t room) {
    cedar_buffer buffer = {text, room, 0};
    uint32_t status = cedar_version(&buffer);
    return (outcome){status, 0, 0, buffer.written};
}
*/
import "C"

import (
	"math"
	"runtime"
	"unsafe"
)

// What is asked with lines.
const (
	lines                   = C.LINES
	oneLine                 = C.ONE_LINE
	linesWithEntities       = C.LINES_WITH_ENTITIES
	wordsOfLine             = C.WORDS_OF_LINE
	wordsOfLineWithEntities = C.WORDS_OF_LINE_WITH_ENTITIES
)

// text gives bytes as a string that shares their memory. It is valid while they stay as they are.
func text(bytes []byte) string {
	return *(*string)(unsafe.Pointer(&bytes))
}

// room gives the address and the size of what a text has free behind its length.
func room(text []byte) (*C.char, C.size_t) {
	free := text[len(text):cap(text)]
	if len(free) == 0 {
		return nil, 0
	}
	return (*C.char)(unsafe.Pointer(&free[0])), C.size_t(len(free))
}

// failed gives the error of a status that needs no further words, and none where the call has done its work.
func failed(status C.uint32_t) error {
	switch status {
	case C.CEDAR_OK:
		return nil
	case C.CEDAR_MEMORY:
		return ErrMemory
	case C.CEDAR_CLOSED:
		return ErrClosed
	}
	return &LibraryError{Status: uint32(status)}
}

// settings gives the settings of files as the library takes them. The error is ErrLanguage where there is no such language.
func (f *Files) settings() (C.uint32_t, error) {
	var settings C.uint32_t
	if f.AnyDecimal {
		settings |= C.CEDAR_ANY_DECIMAL
	}
	switch f.Language {
	case 0, Language3:
		return settings, nil
	case Language4:
		return settings | C.CEDAR_LANGUAGE_4, nil
	}
	return 0, ErrLanguage
}

// refused makes a call that may refuse what it is given, and gives its error.
func refused(call func(why *C.cedar_refusal) C.uint32_t) error {
	why := C.cedar_refusal{size: C.sizeof_cedar_refusal, wants: C.CEDAR_WANTS_WORDS}
	status := call(&why)
	defer C.cedar_refusal_free(&why)
	switch status {
	case C.CEDAR_REFUSED:
		offset := int64(-1)
		if why.offset != math.MaxUint64 {
			offset = int64(why.offset)
		}
		return &Refusal{File: File(why.file), Number: uint32(why.number), Offset: offset, Line: int64(why.line), Words: copied(why.words)}
	case C.CEDAR_FAULTS:
		return &Faults{Report: copied(why.text), Words: copied(why.words)}
	}
	return failed(status)
}

// copied gives a copy of a text of the library.
func copied(text C.cedar_bytes) string {
	return string(unsafe.Slice((*byte)(text.at), int(text.length)))
}

// checked validates files under settings, where there is room for why they are refused, or explains them. It gives the status and the text.
func checked(files *Files, settings C.uint32_t, why *C.cedar_refusal) (C.uint32_t, string) {
	made := make([]byte, 0, 4096)
	for {
		at, size := room(made)
		gives := C.check(text(files.Schema), text(files.Policies), text(files.Links), text(files.Entities), settings, why, at, size)
		if gives.written <= size {
			return gives.status, string(made[:gives.written])
		}
		made = make([]byte, 0, gives.written)
	}
}

// validated says whether the policies of files have no faults, and gives the report.
func validated(files *Files) (isAccepted bool, report string, err error) {
	settings, err := files.settings()
	if err != nil {
		return false, "", err
	}
	err = refused(func(why *C.cedar_refusal) (status C.uint32_t) {
		status, report = checked(files, settings, why)
		isAccepted = status == C.CEDAR_OK
		if status == C.CEDAR_FAULTS {
			return C.CEDAR_OK
		}
		return status
	})
	return isAccepted, report, err
}

// reportPlace is where a report goes on.
type reportPlace = C.cedar_report_place

// firstPlace gives the beginning of a report of so many lines.
func firstPlace(lines uint64) reportPlace {
	return reportPlace{size: C.sizeof_cedar_report_place, lines: C.uint64_t(lines)}
}

// validatedPart makes the part of a report that begins at a place, in a text which grows, and moves the place on. It says whether there is
// more. With an error the place is as before, and there is no part.
func validatedPart(files *Files, place *reportPlace, made []byte) (part []byte, hasMore bool, err error) {
	settings, err := files.settings()
	if err != nil {
		return nil, false, err
	}
	err = refused(func(why *C.cedar_refusal) C.uint32_t {
		for {
			at, size := room(made)
			it := C.validate_part(text(files.Schema), text(files.Policies), text(files.Links), settings, *place, why, at, size)
			if it.gives.written > size {
				made = make([]byte, 0, it.gives.written)
				continue
			}
			hasMore = it.gives.status == C.CEDAR_MORE
			if !hasMore && it.gives.status != C.CEDAR_OK && it.gives.status != C.CEDAR_FAULTS {
				return it.gives.status
			}
			part, *place = made[:it.gives.written], it.place
			return C.CEDAR_OK
		}
	})
	return part, hasMore, err
}

// explained says why files are refused or have faults.
func explained(files *Files) (string, error) {
	settings, err := files.settings()
	if err != nil {
		return "", err
	}
	status, words := checked(files, settings, nil)
	return words, failed(status)
}

// sharedEngine is an engine of the library, for any number of threads.
type sharedEngine = unsafe.Pointer

// newShared makes an engine to which nothing was published. The collector frees it, if nothing refers to it any more.
func newShared() (*Engine, error) {
	if C.cedar_abi_version() != C.CEDAR_ABI_VERSION {
		return nil, &LibraryError{Status: C.CEDAR_ARGUMENT}
	}
	var shared *C.cedar_shared
	if err := failed(C.cedar_shared_new(&shared)); err != nil {
		return nil, err
	}
	return owning(shared), nil
}

// owning gives the engine that owns one of the library.
func owning(shared *C.cedar_shared) *Engine {
	e := &Engine{shared: sharedEngine(shared)}
	runtime.SetFinalizer(e, (*Engine).free)
	return e
}

// publish makes a call that publishes to the engine, and gives its error.
func (e *Engine) publish(call func(why *C.cedar_refusal) C.uint32_t) error {
	if e.shared == nil {
		return ErrClosed
	}
	defer runtime.KeepAlive(e)
	return refused(call)
}

func (e *Engine) publishFiles(files *Files) error {
	settings, err := files.settings()
	if err != nil {
		return err
	}
	return e.publish(func(why *C.cedar_refusal) C.uint32_t {
		return C.publish(e.shared, text(files.Schema), text(files.Policies), text(files.Links), text(files.Entities), settings, why)
	})
}

func (e *Engine) publishEntities(entities []byte) error {
	return e.publish(func(why *C.cedar_refusal) C.uint32_t { return C.publish_entities(e.shared, text(entities), why) })
}

func (e *Engine) publishChanges(changes []byte) error {
	return e.publish(func(why *C.cedar_refusal) C.uint32_t { return C.publish_changes(e.shared, text(changes), why) })
}

func (e *Engine) keptChanges() (uint64, error) {
	if e.shared == nil {
		return 0, ErrClosed
	}
	gives := C.kept_changes(e.shared)
	runtime.KeepAlive(e)
	return uint64(gives.count), failed(gives.status)
}

func (e *Engine) withChanges(changes []byte) (*Engine, error) {
	var other *C.cedar_shared
	err := e.publish(func(why *C.cedar_refusal) C.uint32_t { return C.with_changes(e.shared, text(changes), &other, why) })
	if err != nil {
		return nil, err
	}
	return owning(other), nil
}

// numbered makes an engine over changed entities, which free frees, or gives the number for which the changes are refused.
func (e *Engine) numbered(changes []byte) (number uint32, other *Engine, err error) {
	if e.shared == nil {
		return 0, nil, ErrClosed
	}
	why := C.cedar_refusal{size: C.sizeof_cedar_refusal}
	var shared *C.cedar_shared
	status := C.with_changes(e.shared, text(changes), &shared, &why)
	runtime.KeepAlive(e)
	if status == C.CEDAR_REFUSED {
		return uint32(why.number), nil, nil
	}
	return 0, &Engine{shared: sharedEngine(shared)}, failed(status)
}

// free frees an engine that nobody uses.
func (e *Engine) free() {
	C.cedar_shared_free((*C.cedar_shared)(e.shared))
}

// close frees all that no running call uses.
func (e *Engine) close() {
	C.cedar_shared_close((*C.cedar_shared)(e.shared))
	runtime.KeepAlive(e)
}

// decided decides a request, and gives the answer line in a text, which grows. A text without room is not written.
func (e *Engine) decided(request *Request, made []byte) (bool, []byte, error) {
	if e.shared == nil {
		return false, nil, ErrClosed
	}
	for {
		at, size := room(made)
		gives := C.decide(e.shared, request.Principal.Type, request.Principal.ID, request.Action.Type, request.Action.ID,
			request.Resource.Type, request.Resource.ID, text(request.Context), at, size)
		runtime.KeepAlive(e)
		switch gives.status {
		case C.CEDAR_OK:
			return gives.allow == 1, made[:gives.written], nil
		case C.CEDAR_ROOM:
			made = make([]byte, 0, gives.written)
		case C.CEDAR_NO_REQUEST:
			refusal := &RequestRefusal{Number: uint32(gives.refused), engine: e, request: *request}
			refusal.request.Context = append([]byte(nil), request.Context...)
			return false, nil, refusal
		default:
			return false, nil, failed(gives.status)
		}
	}
}

// wordsOf says why a request is refused with a number; nothing where the engine does not say it.
func (e *Engine) wordsOf(request *Request, number uint32) string {
	made := make([]byte, 0, 1024)
	for {
		at, size := room(made)
		gives := C.explain_request(e.shared, request.Principal.Type, request.Principal.ID, request.Action.Type, request.Action.ID,
			request.Resource.Type, request.Resource.ID, text(request.Context), C.uint32_t(number), at, size)
		runtime.KeepAlive(e)
		if gives.status != C.CEDAR_ROOM {
			return string(made[:gives.written])
		}
		made = make([]byte, 0, gives.written)
	}
}

// ask appends to a text what is asked with lines. With an error nothing is appended.
func (e *Engine) ask(to, given []byte, what int) ([]byte, error) {
	if e.shared == nil {
		return to, ErrClosed
	}
	for {
		at, size := room(to)
		gives := C.ask(e.shared, C.int(what), text(given), at, size)
		runtime.KeepAlive(e)
		switch gives.status {
		case C.CEDAR_OK:
			return to[:len(to)+int(gives.written)], nil
		case C.CEDAR_ROOM:
			to = append(make([]byte, 0, len(to)+int(gives.written)), to...)
		default:
			return to, failed(gives.status)
		}
	}
}

// Version gives the version of the engine, for example 0.1.0.
func Version() (string, error) {
	made := make([]byte, 0, 64)
	at, size := room(made)
	gives := C.version(at, size)
	if err := failed(gives.status); err != nil {
		return "", err
	}
	return string(made[:gives.written]), nil
}
