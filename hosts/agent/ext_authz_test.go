package main

import (
	"fmt"
	"net/http"
	"os"
	"path/filepath"
	"strings"
	"testing"
)

const notesMapping = `{"principal":{"type":"User","header":"x-user"},
	"action":{"type":"Action","method":{"GET":"read","PUT":"write","DELETE":"delete"}},
	"resource":{"type":"Notebook","path":"/notebooks/{id}"},"context":{"header":"x-context"}}`

// serveMapping serves examples/notes with a mapping.
func serveMapping(t *testing.T, text string) *served {
	path := filepath.Join(t.TempDir(), "mapping.json")
	write(t, path, text)
	return serveExample(t, "notes", "--ext-authz", path)
}

// check makes the call that Envoy makes.
func (s *served) check(method, path string, headers ...string) reply {
	s.t.Helper()
	request := s.request(method, "http://"+s.address+path, "", nil)
	for at := 0; at < len(headers); at += 2 {
		request.Header.Add(headers[at], headers[at+1])
	}
	return s.send(request)
}

// What a proxy hands on to its clients names no policy, and does not say what the agent reads.
const (
	authzAllow   = `{"decision":"allow"}` + "\n"
	authzDeny    = `{"decision":"deny"}` + "\n"
	authzNothing = `{"error":"nothing was decided"}` + "\n"
)

// The ids of policies are in the decision log, and with a flag in a header for the proxy.
func TestTheIDsOfPolicies(t *testing.T) {
	folder := t.TempDir()
	write(t, filepath.Join(folder, "mapping.json"), notesMapping)
	log := filepath.Join(folder, "decisions.jsonl")
	it := serveExample(t, "notes", "--ext-authz", filepath.Join(folder, "mapping.json"), "--decision-log", log, "--ext-authz-policies")
	const plans = "/v1/ext_authz/notebooks/plans"
	for _, one := range []struct{ method, user, body, ids string }{{"DELETE", "ann", authzDeny, `["policy2"]`}, {"PUT", "ann", authzAllow, `["policy0"]`},
		{"PUT", "carol", authzDeny, `[]`}} {
		got := it.check(one.method, plans, "x-user", one.user)
		if got.body != one.body || got.header.Get("Cedar-Policies") != one.ids {
			t.Error(one, got)
		}
		it.decisions.flush()
		text, err := os.ReadFile(log)
		id := got.header.Get("Cedar-Decision-Id")
		if err != nil || id == "" || !strings.Contains(string(text), `{"id":"`+id+`",`) || !strings.Contains(string(text), `determining\":`+
			strings.ReplaceAll(one.ids, `"`, `\"`)) {
			t.Error(err, id, string(text))
		}
	}
	if got := it.check("POST", plans, "x-user", "ann"); got.body != authzNothing || got.header.Get("Cedar-Decision-Id") != "" {
		t.Error(got)
	}
	it.agent.log.flush()
	if !strings.Contains(it.log.String(), `"event":"mapping","name":"the mapping has no action for this method"`) {
		t.Error(it.log.String())
	}
	name := "é\n😀\"\u2028\x7f"
	policy := func(id string) string { return fmt.Sprintf("@id(%q) forbid(principal, action, resource);", id) }
	if got := it.put("/v1/policies", strings.ReplaceAll(policy("NAME"), "NAME", `é\n😀\"\u{2028}\u{7f}`)); got.status != 200 {
		t.Fatal(got)
	}
	got := it.check("PUT", plans, "x-user", "ann")
	if ids := decoded[[]string](t, got.header.Get("Cedar-Policies")); len(ids) != 1 || ids[0] != name {
		t.Errorf("%q", got.header)
	}
	if got := it.put("/v1/policies", policy(strings.Repeat("x", mostIDs))); got.status != 200 {
		t.Fatal(got)
	}
	if got := it.check("PUT", plans, "x-user", "ann"); got.status != 403 || got.body != authzDeny || got.header["Cedar-Policies"] != nil {
		t.Error(got)
	}
}

// The wanted statuses are those of examples/notes/answers.jsonl.
func TestExtAuthz(t *testing.T) {
	it := serveMapping(t, notesMapping)
	const plans = "/v1/ext_authz/notebooks/plans"
	for _, it2 := range []struct {
		method, path string
		headers      []string
		wanted       int
		body         string
	}{
		{"PUT", plans, []string{"x-user", "ann"}, 200, authzAllow},
		{"PUT", plans + "?page=2", []string{"x-user", "ann"}, 200, authzAllow},
		{"GET", plans, []string{"x-user", "bob"}, 200, authzAllow},
		{"PUT", plans, []string{"x-user", "bob"}, 403, authzDeny},
		{"DELETE", plans, []string{"x-user", "ann"}, 403, authzDeny},
		{"PUT", plans, []string{"x-user", "ann", "x-context", "{}"}, 200, authzAllow},
		{"PUT", plans, []string{"x-user", "ann", "x-context", `{"n":1}`}, 400, authzNothing},
		{"PUT", plans, []string{"x-user", "ann", "x-context", `{},"principal":"User::\"ann\""`}, 400, ""},
		{"PUT", plans, []string{"x-user", "ann", "x-context", `{}`, "x-context", `{}`}, 400, ""},
		{"PUT", plans, []string{"x-user", `ann","id":"bob`}, 403, authzDeny},
		{"PUT", plans, []string{"x-user", "ann", "x-user", "bob"}, 400, ""},
		{"PUT", plans, []string{"x-user", "\xff"}, 400, ""},
		{"PUT", plans, []string{"x-user", ""}, 400, ""},
		{"PUT", plans, nil, 400, ""},
		{"POST", plans, []string{"x-user", "ann"}, 400, ""},
		{"PUT", "/v1/ext_authz", []string{"x-user", "ann"}, 400, ""},
		{"PUT", "/v1/ext_authz/notebooks/", []string{"x-user", "ann"}, 400, ""},
		{"PUT", "/v1/ext_authz/notebooks/..", []string{"x-user", "ann"}, 400, ""},
		{"PUT", "/v1/ext_authz/notebooks/pl%61ns", []string{"x-user", "ann"}, 400, ""},
		{"PUT", "/v1/ext_authz/notebooks/x%2f..%2fplans", []string{"x-user", "ann"}, 400, ""},
		{"PUT", "/v1/ext_authz/notebooks/plans/", []string{"x-user", "ann"}, 400, ""},
		{"PUT", "/v1/ext_authz//notebooks/plans", []string{"x-user", "ann"}, 400, ""},
		{"PUT", "/v1/ext_authzx/notebooks/plans", []string{"x-user", "ann"}, 404, ""},
	} {
		got := it.check(it2.method, it2.path, it2.headers...)
		if it2.wanted == 400 && got.body != authzNothing || got.header.Get("Cedar-Policies") != "" {
			t.Error(it2, got)
		}
		if got.status != it2.wanted || it2.body != "" && got.body != it2.body || it2.body == "" && strings.Contains(got.body, "decision") {
			t.Error(it2, got)
		}
	}
}

func TestExtAuthzWithWholeUIDs(t *testing.T) {
	it := serveMapping(t, `{"principal":{"header":"cedar-principal"},"action":{"header":"cedar-action"},
		"resource":{"header":"cedar-resource"}}`)
	ask := func(principal string) reply {
		return it.check("GET", "/v1/ext_authz/anything", "cedar-principal", principal, "cedar-action", `Action::"write"`,
			"cedar-resource", `Notebook::"plans"`)
	}
	for principal, wanted := range map[string]int{`User::"ann"`: 200, `User::"carol"`: 403, "ann": 400, `Ghost::"ann"`: 400,
		`{"type":"User","id":"ann"}`: 400} {
		if got := ask(principal); got.status != wanted {
			t.Error(principal, got)
		}
	}
}

func TestNoMappingNoPath(t *testing.T) {
	it := serveExample(t, "notes")
	if got := it.check("PUT", "/v1/ext_authz/notebooks/plans", "x-user", "ann"); got.status != http.StatusNotFound {
		t.Error(got)
	}
}

func TestWrongMappings(t *testing.T) {
	path := filepath.Join(t.TempDir(), "mapping.json")
	fits := `{"type":"User","header":"x-user"}`
	for _, text := range []string{"", "{", "[]", "{}", `{"principal":{}}`, `{"principals":{}}`,
		`{"principal":{"type":"User"},"action":` + fits + `,"resource":` + fits + `}`,
		`{"principal":{"method":{"GET":"a"}},"action":` + fits + `,"resource":` + fits + `}`,
		`{"principal":{"type":"User","header":"a","path":"/{id}"},"action":` + fits + `,"resource":` + fits + `}`,
		`{"principal":{"type":"User","path":"/a{id}"},"action":` + fits + `,"resource":` + fits + `}`,
		`{"principal":{"type":"User","path":"{id}"},"action":` + fits + `,"resource":` + fits + `}`,
		`{"principal":{"type":"User","path":"/{id}/{id}"},"action":` + fits + `,"resource":` + fits + `}`} {
		write(t, path, text)
		if _, err := readMapping(path); err == nil {
			t.Error(text)
		}
	}
	if _, err := readMapping("envoy/mapping.json"); err != nil {
		t.Error(err)
	}
	write(t, path, notesMapping)
	if _, err := readMapping(path); err != nil {
		t.Error(err)
	}
	_ = os.Remove(path)
	if _, err := readMapping(path); err == nil {
		t.Error("a mapping that is not there")
	}
}
