package main

// Request lines: a short body is read whole and answered at once, and a longer one is answered while it arrives.

import (
	"bytes"
	"io"
	"net/http"
	"strconv"
)

// authorizeLines answers request lines, byte for byte as `cedar authorize` does.
func (a *agent) authorizeLines(w http.ResponseWriter, r *http.Request) {
	it := takeRoom()
	defer it.give()
	if r.ContentLength > a.limits.body {
		a.failBody(w, errTooLarge, a.limits.body)
		return
	}
	if r.ContentLength < 0 || r.ContentLength > wholeBody {
		s := &stream{agent: a, w: w, room: it, of: a.decisions.decides(w, false)}
		s.run(r.Body)
		return
	}
	var err error
	if it.body, err = readWhole(it.body, r, a.limits.body); err == nil && hasLongLine(it.body, a.limits.line) {
		err = errLine
	}
	if err != nil {
		a.failBody(w, err, a.limits.body)
		return
	}
	answer, v, err := a.store.ask(a.lines, it.forAnswers(len(it.body)), it.body)
	it.answer = answer
	if err != nil {
		a.failEngine(w, err)
		return
	}
	of := a.decisions.decides(w, false)
	a.count(v, it.body, it.answer, &of)
	versionHeader(w, v)
	header := w.Header()
	header["Content-Type"] = linesType
	header["Content-Length"] = []string{strconv.Itoa(len(it.answer))}
	_, _ = w.Write(it.answer)
}

// A stream answers lines while they arrive. Once an answer has been written the status is 200. So where it fails later, it cuts the
// connection off: a client sees that the body of the answer has no end, and lines without an answer have no decision.
type stream struct {
	agent   *agent
	w       http.ResponseWriter
	room    *room
	of      decided
	read    int64 // the bytes of the body so far
	isBegun bool  // whether an answer has been written
}

// run answers all lines of a body.
func (s *stream) run(body io.Reader) {
	if cap(s.room.body) < pieceSize {
		s.room.body = make([]byte, 0, pieceSize)
	}
	for {
		if len(s.room.body) == cap(s.room.body) {
			s.room.body = append(s.room.body, 0)[:len(s.room.body)]
		}
		count, err := body.Read(s.room.body[len(s.room.body):cap(s.room.body)])
		s.read += int64(count)
		searched := len(s.room.body)
		s.room.body = s.room.body[:searched+count]
		if failed := s.take(searched, err == io.EOF); failed != nil {
			s.fail(failed)
			return
		}
		if err == io.EOF {
			s.end()
			return
		}
		if err != nil {
			s.fail(err)
			return
		}
	}
}

// take answers the whole lines that have arrived, or at the end all of them, and keeps the rest. The first bytes have no line feed.
func (s *stream) take(searched int, isEnd bool) error {
	limits := &s.agent.limits
	if s.read > limits.body {
		return errTooLarge
	}
	whole := searched + bytes.LastIndexByte(s.room.body[searched:], '\n') + 1
	if whole == searched {
		whole = 0
	}
	if isEnd {
		whole = len(s.room.body)
	}
	if hasLongLine(s.room.body, limits.line) {
		return errLine
	}
	if whole == 0 {
		return nil
	}
	if err := s.answer(s.room.body[:whole]); err != nil {
		return err
	}
	s.room.body = s.room.body[:copy(s.room.body, s.room.body[whole:])]
	return nil
}

// answer writes the answers to lines, and has them sent at once.
func (s *stream) answer(lines []byte) error {
	answer, v, err := s.agent.store.ask(s.agent.lines, s.room.forAnswers(len(lines)), lines)
	s.room.answer = answer
	if err != nil {
		return err
	}
	s.agent.count(v, lines, answer, &s.of)
	s.begin(v)
	if _, err := s.w.Write(answer); err != nil {
		return err
	}
	if flusher, isOne := s.w.(http.Flusher); isOne {
		flusher.Flush()
	}
	return nil
}

// begin writes the head of the answer. The connection is closed after the answer: only so does the HTTP server of Go write an answer
// before the body has arrived whole.
func (s *stream) begin(v *version) {
	if s.isBegun {
		return
	}
	s.isBegun = true
	header := s.w.Header()
	header["Content-Type"] = linesType
	header["Connection"] = closing
	if v != nil {
		versionHeader(s.w, v)
	}
	s.w.WriteHeader(http.StatusOK)
}

// end ends a stream of which all lines were answered. A body without lines has an answer without lines.
func (s *stream) end() {
	s.begin(nil)
}

// fail ends a stream that could not go on.
func (s *stream) fail(err error) {
	if s.isBegun {
		s.agent.metrics.failed("cut_off")
		panic(http.ErrAbortHandler)
	}
	if isOfLibrary(err) {
		s.agent.failEngine(s.w, err)
		return
	}
	s.agent.failBody(s.w, err, s.agent.limits.body)
}
