package main

// The decision log: a line for each request line that was answered, with the request and the answer as strings. tools/replay_decisions
// has the program answer these requests anew, and compares.

import (
	"bytes"
	"crypto/rand"
	"encoding/hex"
	"errors"
	"net/http"
	"os"
	"strconv"
	"sync"
	"sync/atomic"
	"time"
)

// decisionLog appends to a file. A nil one is off.
type decisionLog struct {
	lock    sync.Mutex
	file    *os.File
	lines   []byte // those that wait to be written
	size    int64  // of the file, with these lines
	most    int64  // that the file may have, or 0
	omitted omittedKeys
	run     string        // what the ids of this process begin with
	last    atomic.Uint64 // the number of the last id
	failed  atomic.Uint64 // the writes that failed
	fault   error         // of the last one
}

// Lines are written when so many bytes of them wait.
const waitingLines = 64 << 10

// A decided names what is logged of a request of HTTP.
type decided struct {
	id    string // of the request; empty where nothing is logged
	isOne bool   // whether the body is one request, which may have line feeds, and not request lines
	lines int    // of the request, that were logged before
}

// openDecisionLog opens a decision log; it is nil where the path is empty.
func openDecisionLog(settings *config) (*decisionLog, error) {
	if settings.decisionLog == "" {
		return nil, nil
	}
	run := make([]byte, 8)
	if _, err := rand.Read(run); err != nil {
		return nil, err
	}
	it := &decisionLog{most: settings.decisionsMost, omitted: settings.omitted, run: hex.EncodeToString(run) + "-"}
	return it, it.begin(settings.decisionLog)
}

// begin opens a file, and goes on writing there. Where that fails, the open file stays.
func (d *decisionLog) begin(path string) error {
	file, err := openToAppend(path)
	if err != nil {
		return err
	}
	if d.file != nil {
		_ = d.file.Close()
	}
	d.file, d.size = file, 0
	if found, err := file.Stat(); err == nil && found.Mode().IsRegular() {
		d.size = found.Size()
	}
	return nil
}

// decides gives an id to a request of HTTP, also as a header of its answer.
func (d *decisionLog) decides(w http.ResponseWriter, isOne bool) decided {
	if d == nil {
		return decided{isOne: isOne}
	}
	id := d.run + strconv.FormatUint(d.last.Add(1), 10)
	w.Header()["Cedar-Decision-Id"] = []string{id}
	return decided{id: id, isOne: isOne}
}

// nextID gives the id of the next line of a request.
func (d *decided) nextID() string {
	d.lines++
	if d.isOne {
		return d.id
	}
	return d.id + "." + strconv.Itoa(d.lines)
}

// add logs request lines with their answer lines, which are as many.
func (d *decisionLog) add(v *version, requests, answers []byte, of *decided) {
	if d == nil {
		return
	}
	head := append([]byte(`","time":"`), time.Now().UTC().Format(time.RFC3339Nano)...)
	head = append(append(head, `","version":`...), v.header[0]...)
	head = append(append(head, `,"digest":"`...), v.digest...)
	head = append(head, `","request":`...)
	var line []byte
	d.lock.Lock()
	defer d.lock.Unlock()
	for len(answers) > 0 {
		var request, answer []byte
		answer, answers, _ = bytes.Cut(answers, []byte("\n"))
		if of.isOne {
			request = requests
		} else {
			request, requests, _ = bytes.Cut(requests, []byte("\n"))
		}
		request, omitted := d.omitted.of(request, answer)
		line = append(append(append(line[:0], `{"id":"`...), of.nextID()...), head...)
		line = appendQuoted(line, loggedRequest(request, answer))
		line = append(append(line, omitted...), `,"answer":`...)
		line = append(appendQuoted(line, string(answer)), "}\n"...)
		d.fail(d.write(line))
	}
}

// write writes a line. Where the file would then have more bytes than it may, it is renamed to FILE.1 before, in place of what was there.
// The lock is held.
func (d *decisionLog) write(line []byte) error {
	if d.most > 0 && d.size > 0 && d.size+int64(len(line)) > d.most {
		path := d.file.Name()
		if err := d.writeLines(); err != nil {
			return err
		}
		// Another program may have renamed it before.
		if err := os.Rename(path, path+".1"); err != nil && !errors.Is(err, os.ErrNotExist) {
			return err
		}
		if err := d.begin(path); err != nil {
			return err
		}
	}
	d.size += int64(len(line))
	d.lines = append(d.lines, line...)
	if len(d.lines) < waitingLines {
		return nil
	}
	return d.writeLines()
}

// writeLines writes the lines that wait. Those that cannot be written are lost. What was written of the first of them is taken away again: the
// next line would be joined to it. The lock is held.
func (d *decisionLog) writeLines() error {
	if len(d.lines) == 0 {
		return nil
	}
	count, err := d.file.Write(d.lines)
	if err != nil {
		whole := bytes.LastIndexByte(d.lines[:count], '\n') + 1
		d.size -= int64(len(d.lines) - whole)
		d.cut(int64(count - whole))
	}
	d.lines = d.lines[:0]
	return err
}

// cut takes the last bytes of the file away.
func (d *decisionLog) cut(count int64) {
	if found, err := d.file.Stat(); err == nil && count > 0 && found.Size() >= count {
		_ = d.file.Truncate(found.Size() - count)
	}
}

// loggedRequest gives a request as one line that is answered in the same way. A line that is not JSON, and so is refused with 501, may be
// anything: it is logged as an empty line, which is refused with 501, too. In all others a line feed is between the tokens of JSON.
func loggedRequest(request, answer []byte) string {
	if bytes.Equal(answer, []byte(`{"refused":501}`)) {
		return ""
	}
	return string(bytes.ReplaceAll(bytes.TrimSuffix(request, []byte("\n")), []byte("\n"), []byte(" ")))
}

// reopen opens the file anew, which another program may have renamed. Where that fails, the open file stays.
func (d *decisionLog) reopen() {
	if d == nil {
		return
	}
	d.flush()
	d.lock.Lock()
	defer d.lock.Unlock()
	d.fail(d.begin(d.file.Name()))
}

// reopenIfMoved opens the file anew where its path no longer leads to it, since another program has renamed or removed it.
func (d *decisionLog) reopenIfMoved() {
	if d == nil {
		return
	}
	d.lock.Lock()
	file := d.file
	d.lock.Unlock()
	open, err := file.Stat()
	if err != nil {
		return
	}
	if found, err := os.Stat(file.Name()); err != nil || !os.SameFile(found, open) {
		d.reopen()
	}
}

// openToAppend opens a file of a log, which the user of the process alone may read.
func openToAppend(path string) (*os.File, error) {
	return os.OpenFile(path, os.O_APPEND|os.O_CREATE|os.O_WRONLY, 0o600)
}

// fail counts a write that failed. The lock is held.
func (d *decisionLog) fail(err error) {
	if err != nil {
		d.failed.Add(1)
		d.fault = err
	}
}

// flush writes the lines that wait.
func (d *decisionLog) flush() {
	if d == nil {
		return
	}
	d.lock.Lock()
	defer d.lock.Unlock()
	d.fail(d.writeLines())
}

// failures gives the number of writes that failed.
func (d *decisionLog) failures() uint64 {
	if d == nil {
		return 0
	}
	return d.failed.Load()
}

// lastFault gives why the last write failed that was not given before; it is nil where there is none.
func (d *decisionLog) lastFault() error {
	if d == nil {
		return nil
	}
	d.lock.Lock()
	defer d.lock.Unlock()
	fault := d.fault
	d.fault = nil
	return fault
}

// close writes the lines that wait, and closes the file.
func (d *decisionLog) close() {
	if d != nil {
		d.flush()
		_ = d.file.Close()
	}
}
