package main

// Files beside those of the engine that are read again when they change, and at SIGHUP: the token of --admin, and certificates. Where they
// cannot be used, what was read before stays in use.

import (
	"sync/atomic"
)

// watched are files that are used together. One goroutine polls them.
type watched struct {
	what       string // for logs and metrics
	paths      []string
	use        func() error // reads the files, and uses what they say from then on
	seen, read stamps       // those at the last poll, and those of the files that were read last
	isFailing  atomic.Bool
}

// watch reads files for the first time.
func watch(what string, use func() error, paths ...string) (*watched, error) {
	it := &watched{what: what, paths: paths, use: use}
	it.read = stampsOf(paths)
	return it, use()
}

// poll reads the files where they have changed, and have stayed as they are since the poll before.
func (w *watched) poll(log *logger) {
	now := stampsOf(w.paths)
	isSettled, isRead := now.equal(w.seen), now.equal(w.read)
	w.seen = now
	if isSettled && !isRead {
		w.again(log)
	}
}

// again reads the files now.
func (w *watched) again(log *logger) {
	w.read = stampsOf(w.paths)
	err := w.use()
	w.isFailing.Store(err != nil)
	if err != nil {
		log.event("error", "reload_refused", text("what", w.what), text("error", err.Error()))
		return
	}
	log.event("info", "reloaded", text("what", w.what))
}
