package main

// How the agent is: /healthz, /readyz, /metrics and /v1/version.

import (
	"bufio"
	"encoding/json"
	"net/http"
	"strconv"
	"time"

	"bobbinjade"
)

// healthz says that the process runs.
func (a *agent) healthz(w http.ResponseWriter) {
	writeJSON(w, http.StatusOK, map[string]bool{"healthy": true})
}

// readiness is what /readyz says.
type readiness struct {
	Ready   bool          `json:"ready"`
	Version uint64        `json:"version"`
	Digest  string        `json:"digest"`
	Reload  *failedReload `json:"reload,omitempty"` // why files that changed were not published
}

// readyz says whether requests are answered. It stays 200 where changed files were refused, since requests are answered according to the
// version before, and a load balancer that takes all replicas out would make an outage of a typing error.
func (a *agent) readyz(w http.ResponseWriter) {
	v := a.store.current.Load()
	it := readiness{Ready: !a.isStopping.Load(), Version: v.number, Digest: v.digest, Reload: a.reloader.failure.Load()}
	status := http.StatusOK
	if !it.Ready {
		status = http.StatusServiceUnavailable
	}
	writeJSON(w, status, it)
}

// writeMetrics writes the metrics.
func (a *agent) writeMetrics(w http.ResponseWriter) {
	w.Header()["Content-Type"] = []string{"text/plain; version=0.0.4; charset=utf-8"}
	buffer := bufio.NewWriter(w)
	a.metrics.write(buffer, gauges{a.store.current.Load(), a.public.count(), a.decisions.failures(), a.failing()})
	_ = buffer.Flush()
}

// failing says of all that is read again whether the last time failed.
func (a *agent) failing() []failing {
	all := []failing{{"files", a.reloader.failure.Load() != nil}}
	for _, it := range a.watched {
		all = append(all, failing{it.what, it.isFailing.Load()})
	}
	return all
}

// currentVersion is what /v1/version says, and what a call that publishes answers.
type currentVersion struct {
	Version    uint64            `json:"version"`
	Digest     string            `json:"digest"`
	Digests    map[string]string `json:"digests"`
	AnyDecimal bool              `json:"any_decimal"`
	Language   uint32            `json:"language"`
	Source     string            `json:"source"`
	Published  time.Time         `json:"published"`
	Engine     string            `json:"engine"`
	Held       []string          `json:"held,omitempty"` // the files of which calls have published others
}

// describe describes a version.
func (a *agent) describe(v *version) currentVersion {
	engine, _ := bobbinjade.Version()
	digests := map[string]string{}
	for file, digest := range v.digests {
		digests[file.String()] = digest
	}
	return currentVersion{Version: v.number, Digest: v.digest, Digests: digests, AnyDecimal: v.files.AnyDecimal,
		Language: uint32(v.files.Language), Source: v.source, Published: v.published, Engine: engine, Held: a.reloader.held(v)}
}

// writeVersion says which version is current.
func (a *agent) writeVersion(w http.ResponseWriter) {
	v := a.store.current.Load()
	versionHeader(w, v)
	writeJSON(w, http.StatusOK, a.describe(v))
}

// writeEntities writes the entities after all changes. Their digest is the tag that If-Match takes.
func (a *agent) writeEntities(w http.ResponseWriter) {
	text, v, err := a.store.entities()
	if err != nil {
		a.failEngine(w, err)
		return
	}
	versionHeader(w, v)
	header := w.Header()
	header["Content-Type"] = jsonType
	header["Content-Length"] = []string{strconv.Itoa(len(text))}
	header.Set("ETag", `"`+v.digests[bobbinjade.Entities]+`"`)
	w.WriteHeader(http.StatusOK)
	_, _ = w.Write(text)
}

// writeJSON writes a value as a line.
func writeJSON(w http.ResponseWriter, status int, value any) {
	w.Header()["Content-Type"] = jsonType
	w.WriteHeader(status)
	encoder := json.NewEncoder(w)
	encoder.SetEscapeHTML(false)
	_ = encoder.Encode(value)
}
