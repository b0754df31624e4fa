package bobbinjade

import (
	"errors"
	"fmt"
	"strings"
)

// ErrMemory says that memory ran out. Nothing was decided, and nothing has changed.
var ErrMemory = errors.New("bobbinjade: out of memory")

// ErrClosed says that the engine was closed.
var ErrClosed = errors.New("bobbinjade: the engine is closed")

// ErrLanguage says that there is no such language. Nothing was read, and nothing has changed.
var ErrLanguage = errors.New("bobbinjade: the language is 3 or 4")

// File is one of the files of an engine.
type File uint32

// The files of an engine.
const (
	Schema File = iota + 1
	Policies
	Links
	Entities
)

// String gives the name of the file.
func (f File) String() string {
	return [...]string{"", "schema", "policies", "links", "entities"}[f%5]
}

// Refusal says why a file is refused. Nothing has changed.
type Refusal struct {
	File   File
	Number uint32 // of docs/REFUSALS.md
	Offset int64  // in bytes from 0, or -1 where the file has no place
	Line   int64  // from 1, or 0 where the file has no place
	Words  string // the explanation for people, as the program prints it
}

func (r *Refusal) Error() string { return strings.TrimSpace(r.Words) }

// Faults says that the policies have faults. Nothing has changed.
type Faults struct {
	Report string // as `cedar validate` prints it
	Words  string // the explanation for people, as the program prints it
}

func (f *Faults) Error() string { return strings.TrimSpace(f.Words) }

// RequestRefusal says that a request is refused, so nothing was decided.
type RequestRefusal struct {
	Number uint32 // of docs/REFUSALS.md

	engine  *Engine
	request Request
}

// Words gives the explanation for people, as the program prints it. It is made when it is asked for, since it may take a thousand times as
// long as a decision. It is empty where the engine is closed, or where other files have been published by which the request is not refused
// with this number.
func (r *RequestRefusal) Words() string {
	if r.engine == nil {
		return ""
	}
	return r.engine.wordsOf(&r.request, r.Number)
}

func (r *RequestRefusal) Error() string {
	if words := r.Words(); words != "" {
		return strings.TrimSpace(words)
	}
	return fmt.Sprintf("bobbinjade: the request is refused: %d", r.Number)
}

// LibraryError says that the library does not fit this package.
type LibraryError struct {
	Status uint32
}

func (l *LibraryError) Error() string {
	return fmt.Sprintf("bobbinjade: the library does not fit this package: status %d", l.Status)
}
