package main

// Bodies: how they are read, with memory that grows only with what has arrived.

import (
	"bytes"
	"errors"
	"io"
	"net/http"
	"sync"
)

var (
	errTooLarge = errors.New("the body is too large")
	errLine     = errors.New("a line is too long")
)

// A room is memory for the body of a request and its answer, which is used again by later requests.
type room struct {
	body, answer []byte
}

// rooms are the rooms that no request uses.
var rooms = sync.Pool{New: func() any {
	return &room{body: make([]byte, 0, 4096), answer: make([]byte, 0, 1024)}
}}

// A room with more than so many bytes is not kept.
const keptRoom = 1 << 20

func takeRoom() *room {
	return rooms.Get().(*room)
}

// give puts a room back.
func (r *room) give() {
	if cap(r.body)+cap(r.answer) <= keptRoom {
		r.body, r.answer = r.body[:0], r.answer[:0]
		rooms.Put(r)
	}
}

// readWhole reads a body of at most limit bytes into a text, which grows. The error is errTooLarge, or that of the connection.
func readWhole(to []byte, r *http.Request, limit int64) ([]byte, error) {
	if r.ContentLength > limit {
		return to, errTooLarge
	}
	for {
		if len(to) == cap(to) {
			to = append(to, 0)[:len(to)]
		}
		count, err := r.Body.Read(to[len(to):cap(to)])
		to = to[:len(to)+count]
		switch {
		case int64(len(to)) > limit:
			return to, errTooLarge
		case err == io.EOF:
			return to, nil
		case err != nil:
			return to, err
		}
	}
}

// forAnswers gives the room of answers, with as much memory as the answers to lines need where they are no longer than the lines. The
// library makes its answers anew where the memory is too small.
func (r *room) forAnswers(lines int) []byte {
	if most := lines + 256; cap(r.answer) < most {
		r.answer = make([]byte, 0, most)
	}
	return r.answer[:0]
}

// nextLine gives the first line of a text, with its line feed where it has one.
func nextLine(text []byte) []byte {
	if at := bytes.IndexByte(text, '\n'); at >= 0 {
		return text[:at+1]
	}
	return text
}

// hasLongLine says whether a line has more than limit bytes, without its line feed.
func hasLongLine(text []byte, limit int64) bool {
	for int64(len(text)) > limit {
		line := nextLine(text)
		if int64(len(bytes.TrimSuffix(line, []byte("\n")))) > limit {
			return true
		}
		text = text[len(line):]
	}
	return false
}
