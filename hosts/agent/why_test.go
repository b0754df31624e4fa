package main

// POST /v1/why: one request with all that the library says of it.

import (
	"os"
	"path/filepath"
	"strings"
	"testing"
)

// explanation is what /v1/why answers.
type explanation struct {
	Decision    string         `json:"decision"`
	Determining []string       `json:"determining"`
	Erring      []failedPolicy `json:"erring"`
	Refused     int            `json:"refused"`
	Words       string         `json:"words"`
	Version     uint64         `json:"version"`
	Digest      string         `json:"digest"`
}

// why asks why a request has its answer.
func (s *served) why(request string) reply {
	s.t.Helper()
	return s.call("POST", "/v1/why", "", request, s.admin)
}

// The decision is that of the version that answers, with all of its answer line, and nothing is counted or logged as decided.
func TestWhyOfADecision(t *testing.T) {
	path := filepath.Join(t.TempDir(), "decisions.jsonl")
	it := serveExample(t, "notes", "--decision-log", path)
	got := it.why(line("ann", "delete"))
	read := decoded[explanation](t, got.body)
	if got.status != 200 || read.Decision != "deny" || strings.Join(read.Determining, " ") != "policy2" || len(read.Erring) != 0 {
		t.Error(got)
	}
	if current := it.store.current.Load(); read.Version != 1 || read.Digest != current.digest || got.header.Get("Cedar-Version") != "1" {
		t.Error(got, current.digest)
	}
	answer := it.ask(line("ann", "delete")).body
	if !strings.HasPrefix(got.body, strings.TrimSuffix(answer, "}\n")+`,"version":1,`) {
		t.Error(got.body, answer)
	}
	if got := it.put("/v1/policies", `@id("all") permit(principal, action, resource);`); got.status != 200 {
		t.Fatal(got)
	}
	if read = decoded[explanation](t, it.why(line("ann", "delete")).body); read.Decision != "allow" || read.Version != 2 || read.Determining[0] != "all" {
		t.Error(read)
	}
	if it.metric(`decisions_total{decision="deny"}`) != "1" || it.metric(`decisions_total{decision="allow"}`) != "0" {
		t.Error("it is counted")
	}
	it.decisions.flush()
	if text, err := os.ReadFile(path); err != nil || strings.Count(string(text), "\n") != 1 {
		t.Error(string(text), err)
	}
}

// Policies that failed are named with what they said.
func TestWhyNamesPoliciesThatFailed(t *testing.T) {
	it := serveExample(t, "notes")
	policies := `@id("sum") permit(principal, action, resource) when { 9223372036854775807 + 1 > 0 };`
	if got := it.put("/v1/policies", policies); got.status != 200 {
		t.Fatal(got)
	}
	read := decoded[explanation](t, it.why(line("ann", "read")).body)
	if len(read.Erring) != 1 || read.Erring[0].Policy != "sum" || read.Erring[0].Error == "" || it.metric(`erring_total{policy="sum",error="overflow"}`) != "" {
		t.Error(read)
	}
}

// A refused request has its words each time, whatever the others take.
func TestWhyOfARefusal(t *testing.T) {
	it := serveExample(t, "notes", "--no-words")
	for turn := 0; turn < 20; turn++ {
		got := it.why(line("ann", "wite"))
		read := decoded[explanation](t, got.body)
		if got.status != 400 || read.Refused != 510 || read.Version != 1 || strings.TrimSpace(read.Words) != explainedByProgram(t, "notes", line("ann", "wite")) {
			t.Fatal(got)
		}
	}
	asked := it.request("POST", "http://"+it.admin+"/v1/why", "", strings.NewReader(line("ann", "wite")))
	asked.Header.Set("Accept", "text/plain")
	if got := it.send(asked); got.status != 400 || !strings.HasPrefix(got.body, "error[510]: an action is not declared\n") {
		t.Error(got)
	}
	if got := it.metric(`refusals_total{number="510"}`); got != "" {
		t.Error(got)
	}
}

func TestWhyWithEntities(t *testing.T) {
	it := serveExample(t, "photos", "--entities-in-requests")
	if read := decoded[explanation](t, it.why(requestBringing(`[`+annAlone+`]`)).body); read.Decision != "deny" {
		t.Error(read)
	}
	if read := decoded[explanation](t, it.why(requestBringing(`{}`)).body); read.Refused != 502 || read.Words == "" {
		t.Error(read)
	}
}

// It is on the listener of --admin alone, behind its token, and takes one request.
func TestWhoMayAskWhy(t *testing.T) {
	it := serveExample(t, "notes", "--max-line", "200")
	request := line("ann", "write")
	for _, step := range []struct {
		method, mediaType, body, address string
		status                           int
	}{
		{"POST", "", request, it.address, 404},
		{"POST", "application/json", request, it.admin, 200},
		{"GET", "", "", it.admin, 405},
		{"POST", "application/x-ndjson", request, it.admin, 415},
		{"POST", "", strings.Repeat(" ", 201), it.admin, 413},
		{"POST", "", "", it.admin, 400},
	} {
		if got := it.call(step.method, "/v1/why", step.mediaType, step.body, step.address); got.status != step.status {
			t.Error(step, got)
		}
	}
	locked := serveExample(t, "notes", "--admin-token", tokenFile(t, token, 0o600))
	if got := locked.why(request); got.status != 401 {
		t.Error(got)
	}
}
