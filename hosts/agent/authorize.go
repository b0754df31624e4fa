package main

// POST /v1/authorize: one request, or request lines.

import (
	"mime"
	"net/http"
	"time"
)

// authorize answers a request of the type application/json, or request lines of the type application/x-ndjson.
func (a *agent) authorize(w http.ResponseWriter, r *http.Request) {
	began := time.Now()
	switch of := mediaType(r); {
	case isOneRequest(of):
		a.authorizeOne(w, r)
		a.metrics.took(callOne, began)
	case of == "application/x-ndjson":
		defer a.metrics.took(callLines, began)
		a.authorizeLines(w, r)
	default:
		a.fail(w, http.StatusUnsupportedMediaType, "media_type", "the type is application/json, or application/x-ndjson for request lines")
	}
}

// mediaType gives the type of the body, without parameters.
func mediaType(r *http.Request) string {
	values := r.Header["Content-Type"]
	if len(values) != 1 {
		if len(values) == 0 {
			return ""
		}
		return "several"
	}
	if values[0] == jsonType[0] || values[0] == linesType[0] {
		return values[0]
	}
	name, _, err := mime.ParseMediaType(values[0])
	if err != nil {
		return "unknown"
	}
	return name
}

// isOneRequest says whether a body of this type is one request. One without a type is, and one of the default type of curl.
func isOneRequest(mediaType string) bool {
	return mediaType == "application/json" || mediaType == "application/x-www-form-urlencoded" || mediaType == ""
}

// authorizeOne answers the request that the body is. A refused request has the status 400.
func (a *agent) authorizeOne(w http.ResponseWriter, r *http.Request) {
	it := takeRoom()
	defer it.give()
	var err error
	if it.body, err = readWhole(it.body, r, a.limits.line); err != nil {
		a.failBody(w, err, a.limits.line)
		return
	}
	a.answerOne(w, r, it)
}

// answerOne writes the answer line to the request of a room: with 200 for an allow and a deny, and with 400 for a refusal, whose words are
// added. A client that accepts text/plain gets the words alone.
func (a *agent) answerOne(w http.ResponseWriter, r *http.Request, it *room) {
	what, v := a.decide(w, it)
	if what == noDecision {
		return
	}
	status := http.StatusOK
	if what == refused {
		status = http.StatusBadRequest
		words := a.words.of(v.engine, it.body)
		if words != "" && wantsWords(r) {
			writeWords(w, status, words)
			return
		}
		it.answer = withWords(it.answer, words)
	}
	it.answer = append(it.answer, '\n')
	w.Header()["Content-Type"] = jsonType
	w.WriteHeader(status)
	_, _ = w.Write(it.answer)
}

// decide has the request of a room answered, and gives the outcome, with the version. Where there is none, it has said so to the client.
func (a *agent) decide(w http.ResponseWriter, it *room) (outcome, *version) {
	answer, v, err := a.store.ask(a.one, it.answer, it.body)
	it.answer = answer
	if err != nil {
		a.failEngine(w, err)
		return noDecision, nil
	}
	of := a.decisions.decides(w, true)
	a.count(v, it.body, it.answer, &of)
	what, _ := outcomeOf(it.answer)
	if what == noDecision {
		a.failAnswer(w)
		return noDecision, nil
	}
	versionHeader(w, v)
	return what, v
}
