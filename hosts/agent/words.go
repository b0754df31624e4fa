package main

// The words of a refused request: what `cedar authorize --explain-lines` says. They take up to a thousand times as long as a decision,
// and whoever may ask can have a request refused. So they are made one after another, in a small share of one processor. A request beyond that
// is answered with its number alone.

import (
	"net/http"
	"sync"
	"time"

	"bobbinjade"
)

const (
	// Words take at most one part in so many of the time of one processor.
	partsOfTime = 20
	// Of that, so much may be saved: a person who tries one request after another gets the words of each.
	savedTime = 100 * time.Millisecond
)

// A phrasing is a call of an engine that says in words why a request is refused.
type phrasing func(engine *bobbinjade.Engine, request []byte) (string, error)

// A phraser makes words in its share of time.
type phraser struct {
	phrase phrasing
	isOff  bool
	lock   sync.Mutex // held while words are made
	paid   time.Time  // until then the words that were made take the share
}

// of gives the words of a refused request; none where the share is taken, or where the engine was replaced meanwhile.
func (p *phraser) of(engine *bobbinjade.Engine, request []byte) string {
	if p.isOff || !p.lock.TryLock() {
		return ""
	}
	defer p.lock.Unlock()
	began := time.Now()
	if p.paid.After(began) {
		return ""
	}
	if least := began.Add(-partsOfTime * savedTime); p.paid.Before(least) {
		p.paid = least
	}
	words, err := p.phrase(engine, request)
	p.paid = p.paid.Add(partsOfTime * time.Since(began))
	if err != nil {
		return ""
	}
	return words
}

// withWords adds words to the answer line of a refusal. Without words the line stays.
func withWords(answer []byte, words string) []byte {
	if words == "" {
		return answer
	}
	return append(appendQuoted(append(answer[:len(answer)-1], `,"words":`...), words), '}')
}

// writeWords answers with words for people.
func writeWords(w http.ResponseWriter, status int, words string) {
	w.Header()["Content-Type"] = plainType
	w.WriteHeader(status)
	_, _ = w.Write([]byte(words))
}
