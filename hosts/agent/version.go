package main

// Versions: the files that requests are answered according to, and the swap of one for the next.

import (
	"crypto/sha256"
	"encoding/hex"
	"errors"
	"fmt"
	"io"
	"strconv"
	"sync"
	"sync/atomic"
	"time"

	"bobbinjade"
)

// allFiles are the files of an engine, in the order in which it reads them.
var allFiles = [...]bobbinjade.File{bobbinjade.Schema, bobbinjade.Policies, bobbinjade.Links, bobbinjade.Entities}

// sourcePatch is the source of the versions that PATCH makes.
const sourcePatch = "patch"

// A version is an engine with the files of which it was made. Nothing of it changes. Entities that changes have named since their file was
// published are not in files.Entities: the store has them.
type version struct {
	number    uint64 // from 1, in the order in which they were published
	engine    *bobbinjade.Engine
	files     bobbinjade.Files
	digests   map[bobbinjade.File]string // "sha256:" and hexadecimal digits; none of links that are not there
	digest    string                     // of all files and settings
	source    string                     // what published it: start, reload, hangup, call (of /v1/reload), put or patch
	published time.Time
	header    []string // the number, as the header Cedar-Version has it
}

// contentOf gives the place of a file among files.
func contentOf(files *bobbinjade.Files, file bobbinjade.File) *[]byte {
	switch file {
	case bobbinjade.Schema:
		return &files.Schema
	case bobbinjade.Policies:
		return &files.Policies
	case bobbinjade.Links:
		return &files.Links
	}
	return &files.Entities
}

// digestOf gives the SHA-256 of bytes, as versions name it.
func digestOf(content []byte) string {
	sum := sha256.Sum256(content)
	return "sha256:" + hex.EncodeToString(sum[:])
}

// digestsOf gives the digests of files.
func digestsOf(files *bobbinjade.Files) map[bobbinjade.File]string {
	digests := map[bobbinjade.File]string{}
	for _, file := range allFiles {
		content := *contentOf(files, file)
		if file != bobbinjade.Links || len(content) > 0 {
			digests[file] = digestOf(content)
		}
	}
	return digests
}

// newVersion makes a version of an engine.
func newVersion(number uint64, source string, engine *bobbinjade.Engine, files *bobbinjade.Files, digests map[bobbinjade.File]string) *version {
	v := &version{number: number, engine: engine, files: *files, source: source, published: time.Now().UTC(), digests: digests,
		header: []string{strconv.FormatUint(number, 10)}}
	all := sha256.New()
	for _, file := range allFiles {
		_, _ = io.WriteString(all, file.String()+" "+digests[file]+"\n")
	}
	fmt.Fprintf(all, "any-decimal %t\n", files.AnyDecimal)
	if files.Language == bobbinjade.Language4 {
		// A version of the default language has the digest that it had before there was another.
		fmt.Fprintf(all, "language %d\n", files.Language)
	}
	v.digest = "sha256:" + hex.EncodeToString(all.Sum(nil))
	return v
}

// A store has the current version.
type store struct {
	lock    sync.Mutex // of publishers
	changed changedEntities
	kept    int // the bytes that changed takes, in this process and in the engine
	current atomic.Pointer[version]
}

// publish makes a version of the files that a change makes of the current ones, and has later requests answered according to it. Requests
// do not wait. With an error the current version stays: *Refusal, *Faults or ErrMemory of the binding, or the error of the change.
func (s *store) publish(source string, change func(*bobbinjade.Files) error) (*version, error) {
	s.lock.Lock()
	defer s.lock.Unlock()
	var files bobbinjade.Files
	number, old := uint64(1), s.current.Load()
	if old != nil {
		files, number = old.files, old.number+1
		var err error
		if files.Entities, err = s.changed.over(files.Entities); err != nil {
			return nil, err
		}
	}
	if err := change(&files); err != nil {
		return nil, err
	}
	engine, err := bobbinjade.New(files)
	if err != nil {
		return nil, err
	}
	s.swap(old, newVersion(number, source, engine, &files, digestsOf(&files)), nil)
	return s.current.Load(), nil
}

// publishEntities makes a version with other entities. The other files are not read again. With an error the current version stays.
func (s *store) publishEntities(source string, entities []byte, tags []string) (*version, error) {
	s.lock.Lock()
	defer s.lock.Unlock()
	old := s.current.Load()
	if err := old.matches(bobbinjade.Entities, tags); err != nil {
		return nil, err
	}
	engine, err := old.engine.WithChanges([]byte("{}"))
	if err != nil {
		return nil, err
	}
	if err := engine.PublishEntities(entities); err != nil {
		_ = engine.Close()
		return nil, err
	}
	files := old.files
	files.Entities = entities
	s.swap(old, old.next(source, engine, &files, digestOf(entities)), nil)
	return s.current.Load(), nil
}

// entities gives the entities after all changes, as a file, and the version of which they are.
func (s *store) entities() ([]byte, *version, error) {
	s.lock.Lock()
	defer s.lock.Unlock()
	v := s.current.Load()
	text, err := s.changed.over(v.files.Entities)
	return text, v, err
}

// change makes a version with changed entities. What the changes do not name is not read again. With an error the current version stays. The
// digest of the entities is that of the last one and the changes: the same changes of the same file give the same digest.
func (s *store) change(source string, changes []byte, tags []string) (*version, error) {
	s.lock.Lock()
	defer s.lock.Unlock()
	old := s.current.Load()
	if err := old.matches(bobbinjade.Entities, tags); err != nil {
		return nil, err
	}
	engine, err := old.engine.WithChanges(changes)
	if err != nil {
		return nil, err
	}
	read, err := readChanges(changes)
	if err != nil {
		_ = engine.Close()
		return nil, err
	}
	all := s.changed
	if all == nil {
		all = changedEntities{}
	}
	for key, entry := range read {
		s.kept += all.keep(key, entry)
	}
	digest := digestOf([]byte(old.digests[bobbinjade.Entities] + "\n" + digestOf(changes)))
	s.swap(old, old.next(source, engine, &old.files, digest), all)
	return s.current.Load(), nil
}

// The changes of which the entities are written anew take so many bytes, and as many as half of the file of entities.
const mostKept = 1 << 20

// compact writes the entities anew where much is kept of changes, so that nothing is kept of entities that came and went. Answers, the number
// and the digests of the version stay. It gives the time that it took, or 0 where little is kept. Where it fails, it is tried again when as
// much more is kept.
func (s *store) compact() (time.Duration, error) {
	s.lock.Lock()
	defer s.lock.Unlock()
	began, old := time.Now(), s.current.Load()
	if s.kept < mostKept+len(old.files.Entities)/2 {
		return 0, nil
	}
	s.kept = 0
	text, err := s.changed.over(old.files.Entities)
	if err != nil {
		return 0, err
	}
	engine, err := old.engine.WithChanges([]byte("{}"))
	if err != nil {
		return 0, err
	}
	if err := engine.PublishEntities(text); err != nil {
		_ = engine.Close()
		return 0, err
	}
	same := *old
	same.engine, same.files.Entities = engine, text
	s.swap(old, &same, nil)
	return time.Since(began), nil
}

// next gives the version after this one, of which the entities alone differ.
func (v *version) next(source string, engine *bobbinjade.Engine, files *bobbinjade.Files, entities string) *version {
	digests := map[bobbinjade.File]string{}
	for file, digest := range v.digests {
		digests[file] = digest
	}
	digests[bobbinjade.Entities] = entities
	return newVersion(v.number+1, source, engine, files, digests)
}

// swap has a version take the place of the current one, with the entities that changes have named. The publisher has the lock.
func (s *store) swap(old, next *version, changed changedEntities) {
	s.changed = changed
	if changed == nil {
		s.kept = 0
	}
	s.current.Store(next)
	if old != nil {
		_ = old.engine.Close()
	}
}

// A question is a call of an engine that appends the answer to request lines to a text.
type question func(engine *bobbinjade.Engine, text, lines []byte) ([]byte, error)

// The questions: one request, and request lines.
var (
	oneRequest   question = (*bobbinjade.Engine).AppendAnswerLine
	requestLines question = (*bobbinjade.Engine).AppendAnswer
)

// ask appends the answer of the current version, and gives that version.
func (s *store) ask(ask question, text, lines []byte) ([]byte, *version, error) {
	for {
		v := s.current.Load()
		answer, err := ask(v.engine, text, lines)
		isReplaced := errors.Is(err, bobbinjade.ErrClosed) && s.current.Load() != v
		if !isReplaced {
			return answer, v, err
		}
	}
}
