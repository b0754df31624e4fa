package main

// Reloading: the files of the command line, read anew where they have changed.

import (
	"errors"
	"fmt"
	"net/http"
	"os"
	"strings"
	"sync"
	"sync/atomic"
	"time"

	"bobbinjade"
)

// reloader watches the files of the command line.
type reloader struct {
	agent      *agent
	paths      []namedPath
	anyDecimal bool
	language   bobbinjade.Language
	every      time.Duration
	replaces   bool // whether a file that has changed replaces what calls have published
	lock       sync.Mutex
	seen       stamps                                     // those at the last poll
	read       stamps                                     // those of the files that were read last
	applied    atomic.Pointer[map[bobbinjade.File]string] // the digests of the files that were published last
	failure    atomic.Pointer[failedReload]
}

// stamps say which state of its file a path leads to, by path.
type stamps map[string]stamp

// stamp is the state of a file, as far as the file system says it without reading.
type stamp struct {
	changed time.Time
	size    int64
	isThere bool
	same    os.FileInfo
}

// failedReload says why files that changed were not published.
type failedReload struct {
	failure
	Time time.Time `json:"time"`
}

func newReloader(it *agent, settings *config) *reloader {
	return &reloader{agent: it, paths: settings.paths.list(), anyDecimal: settings.anyDecimal,
		language: bobbinjade.Language(settings.language), every: settings.reloadEvery, replaces: settings.doesReplace}
}

// run reloads files until it is stopped.
func (r *reloader) run(hangups, stopped <-chan struct{}) {
	var polls <-chan time.Time
	if r.every > 0 {
		ticker := time.NewTicker(r.every)
		defer ticker.Stop()
		polls = ticker.C
	}
	for {
		select {
		case <-stopped:
			return
		case <-hangups:
			for _, it := range r.agent.watched {
				it.again(r.agent.log)
			}
			r.hangup()
		case <-polls:
			for _, it := range r.agent.watched {
				it.poll(r.agent.log)
			}
			r.poll()
		}
	}
}

// start publishes the files as the first version.
func (r *reloader) start() error {
	return r.readFiles("start", false)
}

// hangup reads all files now, and publishes those that have changed. The log says where calls have published others, which stay.
func (r *reloader) hangup() {
	r.failure.Store(nil)
	r.keepFailure(r.readFiles("hangup", false))
	if held := r.held(r.agent.store.current.Load()); len(held) > 0 {
		r.agent.log.event("warning", "reload_held", text("files", strings.Join(held, " ")),
			text("why", "calls have published others, which stay: POST /v1/reload?force=true replaces them"))
	}
}

// reload reads the files now, and publishes those that have changed, or with ?force=true all that are not current.
func (a *agent) reload(w http.ResponseWriter, r *http.Request) {
	query := r.URL.RawQuery
	var held *heldError
	switch {
	case r.Method != http.MethodPost:
		a.failMethod(w, http.MethodPost)
		return
	case isOfBrowser(r):
		a.failBrowser(w)
		return
	case query != "" && query != "force=true":
		a.fail(w, http.StatusBadRequest, "query", "the query is force=true, or there is none")
		return
	}
	a.reloader.failure.Store(nil)
	err := a.reloader.readFiles("call", query != "")
	a.reloader.keepFailure(err)
	switch {
	case errors.As(err, &held):
		a.fail(w, http.StatusConflict, "held", err.Error())
	case err != nil:
		a.failPublish(w, r, err)
	default:
		v := a.store.current.Load()
		versionHeader(w, v)
		writeJSON(w, http.StatusOK, a.describe(v))
	}
}

// heldError says that a file has changed, and that calls have published others in its place.
type heldError struct {
	files []string
}

func (h *heldError) Error() string {
	return "calls have published other " + strings.Join(h.files, ", ") +
		", and the files have changed: POST /v1/reload?force=true replaces what the calls have published"
}

// held gives the names of the files of which calls have published others than were read last.
func (r *reloader) held(v *version) []string {
	applied := r.applied.Load()
	var names []string
	for _, it := range r.paths {
		if applied != nil && v.digests[it.file] != (*applied)[it.file] {
			names = append(names, it.file.String())
		}
	}
	return names
}

// poll publishes files that have changed. It reads them only where they have stayed as they are since the poll before, so that a file
// that is just being written is not read.
func (r *reloader) poll() {
	r.lock.Lock()
	now := r.stamps()
	isSettled, isRead := now.equal(r.seen), now.equal(r.read)
	r.seen = now
	r.lock.Unlock()
	if isSettled && !isRead {
		r.keepFailure(r.readFiles("reload", false))
	}
}

// errChanging says that a file was written while it was read. The next poll reads it.
var errChanging = errors.New("a file changed while it was read")

// readFiles reads the files, and publishes those that differ from what was read of them last, or, where that is forced, from what is current.
func (r *reloader) readFiles(source string, isForced bool) error {
	r.lock.Lock()
	defer r.lock.Unlock()
	began, before := time.Now(), r.stamps()
	r.read = nil
	contents, digests, err := r.contents()
	if err != nil {
		return err
	}
	if source == "reload" && !r.stamps().equal(before) {
		return errChanging
	}
	if r.keepNew(contents, digests, isForced) {
		err = r.publish(source, began, contents, digests, isForced)
	} else {
		r.applied.Store(&digests)
	}
	// Files that are refused are read again when they change. After another error the next poll reads them again.
	var held *heldError
	if err == nil || failureOf(err).Words != "" || errors.As(err, &held) {
		r.read = before
	}
	return err
}

// keepNew leaves the contents that are to be published: those that differ from what is current, and, unless that is forced, from what was
// read last. It is false where there are none.
func (r *reloader) keepNew(contents map[bobbinjade.File][]byte, digests map[bobbinjade.File]string, isForced bool) bool {
	v, applied := r.agent.store.current.Load(), r.applied.Load()
	if v == nil || applied == nil {
		return true
	}
	for file := range contents {
		if digests[file] == v.digests[file] || !isForced && digests[file] == (*applied)[file] {
			delete(contents, file)
		}
	}
	return len(contents) > 0
}

// contents reads the files. It gives their contents and digests.
func (r *reloader) contents() (map[bobbinjade.File][]byte, map[bobbinjade.File]string, error) {
	contents, digests := map[bobbinjade.File][]byte{}, map[bobbinjade.File]string{}
	for _, it := range r.paths {
		content, err := os.ReadFile(it.path)
		if err != nil {
			return nil, nil, fmt.Errorf("--%s: %w", it.file, err)
		}
		contents[it.file], digests[it.file] = content, digestOf(content)
	}
	return contents, digests, nil
}

// publish publishes contents of files, unless calls have published others in their place. The lock is held.
func (r *reloader) publish(source string, began time.Time, contents map[bobbinjade.File][]byte, digests map[bobbinjade.File]string,
	isForced bool) error {
	v, err := r.agent.store.publish(source, func(files *bobbinjade.Files) error {
		// No call publishes while this runs.
		if held := r.heldOf(contents); len(held) > 0 && !isForced && !r.replaces {
			return &heldError{held}
		}
		files.AnyDecimal, files.Language = r.anyDecimal, r.language
		for file, content := range contents {
			*contentOf(files, file) = content
		}
		return nil
	})
	if err != nil {
		return err
	}
	r.applied.Store(&digests)
	r.agent.published(v, time.Since(began))
	return nil
}

// heldOf gives the names of the files among contents of which calls have published others.
func (r *reloader) heldOf(contents map[bobbinjade.File][]byte) []string {
	v := r.agent.store.current.Load()
	if v == nil {
		return nil
	}
	var names []string
	for _, name := range r.held(v) {
		if _, isNew := contents[fileNames[name]]; isNew {
			names = append(names, name)
		}
	}
	return names
}

// keepFailure logs why files were not published, and keeps it for /readyz, or forgets what was there.
func (r *reloader) keepFailure(err error) {
	if errors.Is(err, errChanging) {
		return
	}
	if err == nil {
		r.failure.Store(nil)
		return
	}
	it := &failedReload{failureOf(err), time.Now().UTC()}
	old := r.failure.Swap(it)
	if old != nil && old.Error == it.Error && old.Words == it.Words {
		return
	}
	r.agent.metrics.reloadRefused.Add(1)
	r.agent.log.event("error", "reload_refused", failureFields(it.failure)...)
}

// stamps gives the states of all files now.
func (r *reloader) stamps() stamps {
	var paths []string
	for _, it := range r.paths {
		paths = append(paths, it.path)
	}
	return stampsOf(paths)
}

// stampsOf gives the states of files now.
func stampsOf(paths []string) stamps {
	all := stamps{}
	for _, path := range paths {
		if found, err := os.Stat(path); err == nil {
			all[path] = stamp{found.ModTime(), found.Size(), true, found}
		} else {
			all[path] = stamp{}
		}
	}
	return all
}

// equal says whether all files are in the same state.
func (s stamps) equal(other stamps) bool {
	if len(s) != len(other) {
		return false
	}
	for path, it := range s {
		that := other[path]
		isSame := it.isThere == that.isThere && it.size == that.size && it.changed.Equal(that.changed)
		if !isSame || it.isThere && !os.SameFile(it.same, that.same) {
			return false
		}
	}
	return true
}
