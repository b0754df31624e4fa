package main

// Problems: answers that are not decisions. Their status is never 200.

import (
	"errors"
	"net"
	"net/http"
	"strconv"

	"bobbinjade"
)

// The values of headers, each made once.
var (
	jsonType  = []string{"application/json"}
	linesType = []string{"application/x-ndjson"}
	plainType = []string{"text/plain; charset=utf-8"}
	closing   = []string{"close"}
)

func decimal(number int) string { return strconv.Itoa(number) }

// fail answers that there is no decision: a status, a word for the metrics, and why.
func (a *agent) fail(w http.ResponseWriter, status int, reason, why string) {
	a.metrics.failed(reason)
	header := w.Header()
	header["Content-Type"] = jsonType
	if status == http.StatusRequestEntityTooLarge || status == http.StatusRequestTimeout {
		header["Connection"] = closing
	}
	w.WriteHeader(status)
	_, _ = w.Write(append(appendQuoted([]byte(`{"error":`), why), "}\n"...))
}

// failBody answers for a body that could not be read.
func (a *agent) failBody(w http.ResponseWriter, err error, limit int64) {
	var late net.Error
	switch {
	case errors.Is(err, errTooLarge):
		a.fail(w, http.StatusRequestEntityTooLarge, "too_large", "the body has more than "+strconv.FormatInt(limit, 10)+" bytes")
	case errors.Is(err, errLine):
		a.fail(w, http.StatusRequestEntityTooLarge, "line_too_long", "a line has more than "+strconv.FormatInt(a.limits.line, 10)+" bytes")
	case errors.As(err, &late) && late.Timeout():
		a.fail(w, http.StatusRequestTimeout, "time", "the body did not arrive in time")
	default:
		a.fail(w, http.StatusBadRequest, "body", "the body cannot be read")
	}
}

// failEngine answers for a call of the library that failed.
func (a *agent) failEngine(w http.ResponseWriter, err error) {
	switch {
	case errors.Is(err, bobbinjade.ErrMemory):
		a.fail(w, http.StatusServiceUnavailable, "memory", "out of memory: nothing was decided")
	default:
		a.log.repeat(repeat{event: "library", name: err.Error()}, 1)
		a.fail(w, http.StatusInternalServerError, "library", "nothing was decided: "+err.Error())
	}
}

// failAnswer answers for an answer line that cannot be passed on.
func (a *agent) failAnswer(w http.ResponseWriter) {
	a.fail(w, http.StatusInternalServerError, "answer", "the answer has another form than those that are known")
}

// failMethod answers for a method that a path does not have.
func (a *agent) failMethod(w http.ResponseWriter, allow string) {
	w.Header().Set("Allow", allow)
	a.fail(w, http.StatusMethodNotAllowed, "method", "this path takes "+allow)
}

// failBrowser answers a page in a browser that would publish.
func (a *agent) failBrowser(w http.ResponseWriter) {
	a.fail(w, http.StatusForbidden, "browser", "a page in a browser cannot publish")
}

// isOfLibrary says whether an error is of a call of the library.
func isOfLibrary(err error) bool {
	var wrong *bobbinjade.LibraryError
	return errors.Is(err, bobbinjade.ErrMemory) || errors.Is(err, bobbinjade.ErrClosed) || errors.As(err, &wrong)
}
