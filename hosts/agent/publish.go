package main

// PUT /v1/policies and the like, on the listener of --admin: a new version of one file, or of several at once. PATCH /v1/entities: changes of
// entities.

import (
	"errors"
	"net/http"
	"strings"
	"time"

	"bobbinjade"
)

// Several files at once: an object with the keys schema, policies, links and entities. This is not a file of the binding.
const severalFiles bobbinjade.File = 0

// publishedPaths are the paths of calls that publish, with the file that the body is.
var publishedPaths = map[string]bobbinjade.File{
	"/v1/schema": bobbinjade.Schema, "/v1/policies": bobbinjade.Policies, "/v1/links": bobbinjade.Links,
	"/v1/entities": bobbinjade.Entities, "/v1/files": severalFiles,
}

// publish publishes a version with the file that the body is. The answer describes the version, or says why nothing has changed.
func (a *agent) publish(w http.ResponseWriter, r *http.Request, file bobbinjade.File) {
	began := time.Now()
	body, err := readWhole(nil, r, a.limits.files)
	if err != nil {
		a.failBody(w, err, a.limits.files)
		return
	}
	v, err := a.store.put(file, body, r.Header["If-Match"])
	a.answerPublish(w, r, v, err, began)
}

// patch publishes a version with the changes of entities that the body is. The answer is like that of publish.
func (a *agent) patch(w http.ResponseWriter, r *http.Request) {
	began := time.Now()
	body, err := readWhole(nil, r, a.limits.files)
	if err != nil {
		a.failBody(w, err, a.limits.files)
		return
	}
	v, err := a.store.change(sourcePatch, body, r.Header["If-Match"])
	a.answerPublish(w, r, v, err, began)
	if err == nil {
		go a.compact()
	}
}

// compact frees what is kept of changes, where that is much. What fails here has changed nothing.
func (a *agent) compact() {
	took, err := a.store.compact()
	switch {
	case err != nil:
		a.log.event("error", "compact_failed", text("error", err.Error()))
	case took > 0:
		a.metrics.compacted.Add(1)
		a.log.event("info", "compacted", seconds("seconds", took))
	}
}

// put publishes a version with a file, or with several, where the tags of If-Match are those of what is current.
func (s *store) put(file bobbinjade.File, body []byte, tags []string) (*version, error) {
	if file == bobbinjade.Entities {
		return s.publishEntities("put", body, tags)
	}
	return s.publish("put", func(files *bobbinjade.Files) error {
		if err := s.current.Load().matches(file, tags); err != nil {
			return err
		}
		if file == severalFiles {
			return replaceSeveral(files, body)
		}
		*contentOf(files, file) = body
		return nil
	})
}

// errMatch says that If-Match names something else than what is current.
var errMatch = errors.New("If-Match does not name what is current")

// matches finds out whether the tags of If-Match name what is current of a file, or of several the version. No tags are as `*`.
func (v *version) matches(file bobbinjade.File, tags []string) error {
	digest := v.digests[file]
	if file == severalFiles {
		digest = v.digest
	}
	isMatch := len(tags) == 0
	for _, tag := range strings.Split(strings.Join(tags, ","), ",") {
		tag = strings.TrimSpace(tag)
		isMatch = isMatch || tag == "*" || tag == `"`+digest+`"`
	}
	if isMatch {
		return nil
	}
	return errMatch
}

// answerPublish describes the version that was published, or says why nothing has changed.
func (a *agent) answerPublish(w http.ResponseWriter, r *http.Request, v *version, err error, began time.Time) {
	if errors.Is(err, errObject) {
		a.fail(w, http.StatusBadRequest, "object", err.Error())
		return
	}
	if errors.Is(err, errMatch) {
		a.fail(w, http.StatusPreconditionFailed, "match", errMatch.Error())
		return
	}
	if err != nil {
		a.metrics.publishRefused.Add(1)
		a.log.event("warning", "publish_refused", failureFields(failureOf(err))...)
		a.failPublish(w, r, err)
		return
	}
	a.published(v, time.Since(began))
	versionHeader(w, v)
	writeJSON(w, http.StatusOK, a.describe(v))
}

// failure is why files were not published.
type failure struct {
	Error   string `json:"error"`
	File    string `json:"file,omitempty"`
	Refused uint32 `json:"refused,omitempty"` // a number of docs/REFUSALS.md
	Offset  *int64 `json:"offset,omitempty"`  // in bytes from 0
	Line    int64  `json:"line,omitempty"`    // from 1
	Report  string `json:"report,omitempty"`  // of faults, as `cedar validate` prints it
	Words   string `json:"words,omitempty"`   // the explanation for people
}

// failureOf describes an error of publishing.
func failureOf(err error) failure {
	var refusal *bobbinjade.Refusal
	var faults *bobbinjade.Faults
	switch {
	case errors.As(err, &refusal):
		it := failure{Error: "a file is refused", File: refusal.File.String(), Refused: refusal.Number, Line: refusal.Line, Words: refusal.Words}
		if refusal.Offset >= 0 {
			it.Offset = &refusal.Offset
		}
		return it
	case errors.As(err, &faults):
		return failure{Error: "the policies have faults", File: bobbinjade.Policies.String(), Report: faults.Report, Words: faults.Words}
	}
	return failure{Error: err.Error()}
}

// failureFields gives what is logged of a failure.
func failureFields(it failure) []field {
	fields := []field{text("error", it.Error)}
	if it.File != "" {
		fields = append(fields, text("file", it.File))
	}
	if it.Refused != 0 {
		fields = append(fields, number("refused", uint64(it.Refused)))
	}
	return append(fields, text("words", it.Words))
}

// failPublish answers for files that are refused or have faults, or for a call that failed.
func (a *agent) failPublish(w http.ResponseWriter, r *http.Request, err error) {
	it := failureOf(err)
	if it.Words == "" {
		a.failEngine(w, err)
		return
	}
	a.metrics.failed("files_refused")
	if wantsWords(r) {
		writeWords(w, http.StatusUnprocessableEntity, it.Words)
		return
	}
	writeJSON(w, http.StatusUnprocessableEntity, it)
}
