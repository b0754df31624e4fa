// Package bobbinjade authorizes requests according to policies of the Cedar language, over the proved engine libcedar.
//
//	engine, err := bobbinjade.New(bobbinjade.Files{Schema: schema, Policies: policies, Entities: entities})
//	response, err := engine.Authorize(ctx, bobbinjade.Request{
//		Principal: bobbinjade.UID{Type: "User", ID: "ann"},
//		Action:    bobbinjade.UID{Type: "Action", ID: "write"},
//		Resource:  bobbinjade.UID{Type: "Notebook", ID: "plans"},
//	})
//
// Any number of goroutines may use an Engine. A request takes no lock, and Publish swaps the files while requests run, PublishEntities the
// entities alone, and PublishChanges changes some of them. Each answer is that of files that were current during its call.
package bobbinjade

import (
	"context"
	"strconv"
	"strings"
	"sync"
)

// Language is a language of schemas and policies, by its number. The zero Language is Language3.
type Language uint32

// The languages: the default one, and that of Cedar 4.
const (
	Language3 Language = 3
	Language4 Language = 4
)

// Files are the contents of the files of an engine. Links is empty where there is no such file. With AnyDecimal, decimal(..) accepts any
// string, and may fail when a request is answered. Language is that of the schema and the policies.
type Files struct {
	Schema, Policies, Links, Entities []byte
	AnyDecimal                        bool
	Language                          Language
}

// UID is the name of an entity: a type such as Shop::User, and an id without quotes.
type UID struct {
	Type, ID string
}

// ParseUID gives the uid that a text such as User::"ann" denotes. It is false where the text has another form, or an escape: an id with a
// quote or a backslash needs UID{Type, ID}.
func ParseUID(text string) (UID, bool) {
	typeName, id, isCut := strings.Cut(strings.TrimSuffix(text, `"`), `::"`)
	isQuoted := isCut && strings.HasSuffix(text, `"`) && len(text) == len(typeName)+len(id)+4
	isOther := func(r rune) bool {
		return r != '_' && r != ':' && (r < '0' || r > '9') && (r < 'A' || r > 'Z') && (r < 'a' || r > 'z')
	}
	if !isQuoted || typeName == "" || strings.IndexFunc(typeName, isOther) >= 0 || strings.ContainsAny(id, `"\`) {
		return UID{}, false
	}
	return UID{Type: typeName, ID: id}, true
}

// Request says who wants to do what, on what. Context is a JSON object, or empty.
type Request struct {
	Principal, Action, Resource UID
	Context                     []byte
}

// Erring is a policy that failed and was skipped, and why: overflow, missing_entity or decimal.
type Erring struct {
	Policy string
	Error  string
}

// Response is an answer: the decision, the ids of the policies that determine it, and the policies that failed.
type Response struct {
	Allowed     bool
	Determining []string
	Erring      []Erring
}

// Report is a report of the validation of policies: whether they have no faults, and what `cedar validate` prints.
type Report struct {
	Accepted bool
	Text     string
}

// Engine answers requests according to its files. A zero Engine is closed.
type Engine struct {
	shared sharedEngine
}

// New reads and validates files, and makes an engine of them. The error is *Refusal, *Faults, ErrMemory or ErrLanguage.
func New(files Files) (*Engine, error) {
	e, err := newShared()
	if err != nil {
		return nil, err
	}
	if err := e.Publish(files); err != nil {
		return nil, err
	}
	return e, nil
}

// Publish reads and validates files, and has all later calls answer according to them. Requests do not wait for it. The error is *Refusal,
// *Faults, ErrMemory, ErrLanguage or ErrClosed; then nothing has changed.
func (e *Engine) Publish(files Files) error {
	return e.publishFiles(&files)
}

// PublishEntities reads entities, and has all later calls answer over them, according to the schema, the policies and the links that are
// current. These are not read again. Requests do not wait for it; Publish waits with its swap. The error is *Refusal, ErrMemory or
// ErrClosed; then nothing has changed.
func (e *Engine) PublishEntities(entities []byte) error {
	return e.publishEntities(entities)
}

// PublishChanges reads changes of entities, {"upsert":[entry, ..],"remove":[uid, ..]}, and has all later calls answer over the entities after
// them. What they do not name is not read again. Requests do not wait for it; another publisher waits. The error is *Refusal, ErrMemory or
// ErrClosed; then nothing has changed.
func (e *Engine) PublishChanges(changes []byte) error {
	return e.publishChanges(changes)
}

// WithChanges makes another engine, of the same policies, over the entities after changes, for example those that a request brings with it.
// This engine is as before. The other one is freed by its Close. The error is that of PublishChanges.
func (e *Engine) WithChanges(changes []byte) (*Engine, error) {
	return e.withChanges(changes)
}

// KeptChanges says how many changes of entities are kept over the entities that were read as a whole: 0 after Publish and PublishEntities. It
// takes time in proportion to the count. The error is ErrMemory or ErrClosed.
func (e *Engine) KeptChanges() (uint64, error) {
	return e.keptChanges()
}

// Close frees all that no running call uses. Later calls give ErrClosed. Closing twice is safe. An Engine to which nothing refers is
// freed without it.
func (e *Engine) Close() error {
	e.close()
	return nil
}

// The texts of Authorize.
var texts = sync.Pool{New: func() any {
	made := make([]byte, 0, 512)
	return &made
}}

// Authorize answers a request. The error is *RequestRefusal where the request is refused, ErrMemory, ErrClosed, or that of ctx where ctx
// has ended before the call.
func (e *Engine) Authorize(ctx context.Context, request Request) (Response, error) {
	if err := ctx.Err(); err != nil {
		return Response{}, err
	}
	kept := texts.Get().(*[]byte)
	defer texts.Put(kept)
	isAllowed, line, err := e.decided(&request, *kept)
	if err != nil {
		return Response{}, err
	}
	*kept = line[:0]
	return responseOf(line, isAllowed)
}

// Decide says whether a request is allowed. It makes no text, so it is the fastest call. It gives the errors of Authorize.
func (e *Engine) Decide(ctx context.Context, request Request) (bool, error) {
	if err := ctx.Err(); err != nil {
		return false, err
	}
	isAllowed, _, err := e.decided(&request, nil)
	return isAllowed, err
}

// Answer gives the answer lines to request lines, all of one version.
func (e *Engine) Answer(given []byte) ([]byte, error) {
	return e.asked(given, lines, 256+len(given))
}

// AnswerWithEntities gives the answer lines to request lines that may bring entities, as `cedar authorize --entities-in-lines` writes them,
// all of one version. The entities of a line replace those of the engine with their uids, or are added to them, for this line alone. A line
// with entities that are refused has an answer that says so.
func (e *Engine) AnswerWithEntities(given []byte) ([]byte, error) {
	return e.asked(given, linesWithEntities, 256+len(given))
}

// AnswerLine gives the answer line to a request line, as `cedar authorize` writes it, without a line feed.
func (e *Engine) AnswerLine(line []byte) ([]byte, error) {
	return e.asked(line, oneLine, 256)
}

// ExplainLine says in words why a request line is refused. It gives an empty string where the line is not refused.
func (e *Engine) ExplainLine(line []byte) (string, error) {
	words, err := e.asked(line, wordsOfLine, 1024)
	return string(words), err
}

// ExplainLineWithEntities is ExplainLine for a line that may bring entities.
func (e *Engine) ExplainLineWithEntities(line []byte) (string, error) {
	words, err := e.asked(line, wordsOfLineWithEntities, 1024)
	return string(words), err
}

// AppendAnswer appends the answer lines to request lines to a text, all of one version. It allocates only where the text lacks the room.
// The text must not overlap the lines. With an error nothing is appended.
func (e *Engine) AppendAnswer(text, given []byte) ([]byte, error) {
	return e.ask(text, given, lines)
}

// AppendAnswerWithEntities appends what AnswerWithEntities gives to a text. It allocates only where the text lacks the room. The text must
// not overlap the lines. With an error nothing is appended.
func (e *Engine) AppendAnswerWithEntities(text, given []byte) ([]byte, error) {
	return e.ask(text, given, linesWithEntities)
}

// AppendAnswerLine appends the answer line to one request line to a text, without a line feed. It allocates only where the text lacks the
// room. The text must not overlap the line. With an error nothing is appended.
func (e *Engine) AppendAnswerLine(text, line []byte) ([]byte, error) {
	return e.ask(text, line, oneLine)
}

// AppendAnswerLineWith appends the answer line to one request line over the entities after changes, which hold for this line alone. Changes
// that are refused have the answer {"refused":N}, as a request that is refused. It is made for requests that bring their entities: no words
// say why, so that a refusal costs no more than an answer. The text must not overlap the rest. With an error nothing is appended.
func (e *Engine) AppendAnswerLineWith(text, line, changes []byte) ([]byte, error) {
	number, other, err := e.numbered(changes)
	if err != nil {
		return text, err
	}
	if number != 0 {
		return append(strconv.AppendUint(append(text, `{"refused":`...), uint64(number), 10), '}'), nil
	}
	defer other.free()
	return other.ask(text, line, oneLine)
}

// Validate validates the policies of files, of which Entities is not read. The error is *Refusal where a file is refused, ErrMemory or
// ErrLanguage.
func Validate(files Files) (Report, error) {
	isAccepted, text, err := validated(&files)
	if err != nil {
		return Report{}, err
	}
	return Report{Accepted: isAccepted, Text: text}, nil
}

// Explain says in words why files are refused or have faults. It gives an empty string where they are accepted. The error is ErrMemory or
// ErrLanguage.
func Explain(files Files) (string, error) {
	return explained(&files)
}

// asked gives what is asked with lines, in a text that begins with so much room.
func (e *Engine) asked(given []byte, what, room int) ([]byte, error) {
	text, err := e.ask(make([]byte, 0, room), given, what)
	if err != nil {
		return nil, err
	}
	return text, nil
}
