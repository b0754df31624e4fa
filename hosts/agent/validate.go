package main

// POST /v1/validate: the report of policies that are sent, according to the current schema.

import (
	"context"
	"net/http"
	"strconv"
	"strings"
	"time"

	"bobbinjade"
)

// validate answers with the report, as `cedar validate` prints it: 200 where there are no faults, and 422 where there are. The body is the
// policies, which are validated without links, or an object of the type application/json with some of the files of PUT /v1/files. A client
// that accepts text/plain gets the words of the explanation.
//
// A validation has its turn before its body is read, so that bodies that wait take no memory, and while its report is sent. A client that
// sends or reads too slowly loses its turn. The call of the library cannot be stopped, so its input is bounded.
func (a *agent) validate(w http.ResponseWriter, r *http.Request, isAdmin bool) {
	defer a.metrics.took(callValidate, time.Now())
	if !a.waitToValidate(r) {
		w.Header()["Connection"] = closing
		w.Header().Set("Retry-After", "1")
		a.fail(w, http.StatusServiceUnavailable, "busy", "other validations took all the time")
		return
	}
	defer func() { <-a.validating }()
	defer a.hasFreed.Store(true)
	setReadDeadline(r, time.Now().Add(a.limits.turn))
	body, err := readWhole(nil, r, a.limits.policies)
	if err != nil {
		a.failBody(w, err, a.limits.policies)
		return
	}
	setReadDeadline(r, time.Time{})
	v := a.store.current.Load()
	files, isOwnSchema, err := filesToValidate(r, v, body)
	switch {
	case err != nil:
		a.fail(w, http.StatusBadRequest, "object", err.Error())
	case !isOwnSchema && int64(len(files.Schema)) > a.limits.schema:
		a.fail(w, http.StatusRequestEntityTooLarge, "schema_too_large", "the schema has more than "+
			strconv.FormatInt(a.limits.schema, 10)+" bytes (--max-schema): use `cedar validate`")
	case !isOwnSchema && !isAdmin:
		a.fail(w, http.StatusForbidden, "schema", "a schema is accepted on the listener of --admin alone")
	default:
		a.report(w, r, v, files)
	}
}

// report writes the report of files, where it cannot be too large.
func (a *agent) report(w http.ResponseWriter, r *http.Request, v *version, files bobbinjade.Files) {
	if limit := a.limits.report; mostOfReport(&files) > float64(limit) {
		a.fail(w, http.StatusRequestEntityTooLarge, "report", "the report of so many policies in so many environments could have more than "+
			strconv.FormatInt(limit, 10)+" bytes (--max-report): use `cedar validate`")
		return
	}
	report, err := bobbinjade.Validate(files)
	if r.Context().Err() != nil {
		return
	}
	setWriteDeadline(r, time.Now().Add(a.limits.turn))
	versionHeader(w, v)
	if err != nil {
		a.failPublish(w, r, err)
		return
	}
	status := http.StatusOK
	if !report.Accepted {
		status = http.StatusUnprocessableEntity
		if wantsWords(r) {
			a.explain(w, files)
			return
		}
	}
	w.Header()["Content-Type"] = linesType
	w.WriteHeader(status)
	_, _ = w.Write([]byte(report.Text))
}

// filesToValidate gives the files that a body says, with those of a version for the others, and whether the schema is that of the version.
func filesToValidate(r *http.Request, v *version, body []byte) (bobbinjade.Files, bool, error) {
	files := bobbinjade.Files{AnyDecimal: v.files.AnyDecimal, Language: v.files.Language}
	if mediaType(r) == "application/json" {
		files.Policies, files.Links = v.files.Policies, v.files.Links
		if err := replaceSeveral(&files, body); err != nil {
			return files, false, err
		}
	} else {
		files.Policies = body
	}
	isOwnSchema := files.Schema == nil
	if isOwnSchema {
		files.Schema = v.files.Schema
	}
	return files, isOwnSchema, nil
}

// waitToValidate waits for a place; it is false where none is free in the time of a request.
func (a *agent) waitToValidate(r *http.Request) bool {
	limit, cancel := context.WithTimeout(r.Context(), a.limits.time/2)
	defer cancel()
	select {
	case a.validating <- struct{}{}:
		return true
	case <-limit.Done():
		return false
	}
}

// explain writes the words for faults.
func (a *agent) explain(w http.ResponseWriter, files bobbinjade.Files) {
	words, err := bobbinjade.Explain(files)
	if err != nil {
		a.failEngine(w, err)
		return
	}
	writeWords(w, http.StatusUnprocessableEntity, words)
}

// wantsWords says whether a client wants words for people.
func wantsWords(r *http.Request) bool {
	return strings.HasPrefix(r.Header.Get("Accept"), "text/plain")
}
