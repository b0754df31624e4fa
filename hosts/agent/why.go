package main

// POST /v1/why, on the listener of --admin: one request, with all that the library says of it. It is for people: it is neither counted nor
// logged, and always has the words of a refusal.

import (
	"net/http"

	"bobbinjade"
)

// serveWhy answers a call that asks why.
func (a *agent) serveWhy(w http.ResponseWriter, r *http.Request) {
	switch {
	case r.Method != http.MethodPost:
		a.failMethod(w, http.MethodPost)
	case a.isEncoded(w, r):
	case !isOneRequest(mediaType(r)):
		a.fail(w, http.StatusUnsupportedMediaType, "media_type", "the body is one request, of the type application/json")
	default:
		a.why(w, r)
	}
}

// why answers a request with its answer line, the words of a refusal, and the version that answered: with 200 for a decision, and with 400 for
// a refusal. A client that accepts text/plain gets the words of a refusal alone.
func (a *agent) why(w http.ResponseWriter, r *http.Request) {
	it := takeRoom()
	defer it.give()
	var err error
	if it.body, err = readWhole(it.body, r, a.limits.line); err != nil {
		a.failBody(w, err, a.limits.line)
		return
	}
	var words string
	answer, v, err := a.store.ask(func(engine *bobbinjade.Engine, text, request []byte) ([]byte, error) {
		answer, err := a.one(engine, text, request)
		if what, _ := outcomeOf(answer); err == nil && what == refused {
			words, err = a.words.phrase(engine, request)
		}
		return answer, err
	}, it.answer, it.body)
	it.answer = answer
	if err != nil {
		a.failEngine(w, err)
		return
	}
	what, _ := outcomeOf(it.answer)
	if what == noDecision {
		a.failAnswer(w)
		return
	}
	versionHeader(w, v)
	status := http.StatusOK
	if what == refused {
		status = http.StatusBadRequest
		if wantsWords(r) {
			writeWords(w, status, words)
			return
		}
	}
	writeWhy(w, status, v, it, words)
}

// writeWhy writes the answer line of a room, the words of a refusal, and the version that answered, as one object.
func writeWhy(w http.ResponseWriter, status int, v *version, it *room, words string) {
	text := withWords(it.answer, words)
	text = append(append(text[:len(text)-1], `,"version":`...), v.header[0]...)
	text = append(appendQuoted(append(text, `,"digest":`...), v.digest), "}\n"...)
	it.answer = text
	w.Header()["Content-Type"] = jsonType
	w.WriteHeader(status)
	_, _ = w.Write(text)
}
