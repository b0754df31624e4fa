package main

import (
	"errors"
	"io"
	"os"
	"path/filepath"
	"strings"
	"testing"

	"bobbinjade"
)

// The files of the language of Cedar 4 that the tests of the bindings read, as an example.
const language4 = "../tests/bindings/language_4"

// An agent of the language of Cedar 4 reads the files of its command line, and those that calls publish or have validated, in this language.
func TestLanguage4(t *testing.T) {
	log := filepath.Join(t.TempDir(), "decisions.jsonl")
	it := serveExample(t, language4, "--language", "4", "--decision-log", log)
	requests, answers := content(t, language4, "requests.jsonl"), content(t, language4, "answers.jsonl")
	if got := it.askLines(requests); got.status != 200 || got.body != answers {
		t.Error(got)
	}
	eventually(t, "all decisions are logged", func() bool {
		text, _ := os.ReadFile(log)
		return strings.Count(string(text), "\n") == 2
	})
	_, files := copied(t, language4)
	if said, status := replay(t, log, append(files, "--language", "4")...); status != 0 || said != "2 same, 0 differ\n" {
		t.Error(said, status)
	}
	if got := decoded[currentVersion](t, it.get("/v1/version").body); got.Language != 4 || got.AnyDecimal {
		t.Error(got)
	}
	for _, path := range []string{"/v1/policies", "/v1/schema", "/v1/entities"} {
		file := map[string]string{"/v1/policies": "policies.cedar", "/v1/schema": "schema.json", "/v1/entities": "entities.json"}[path]
		got := it.put(path, content(t, language4, file))
		if got.status != 200 || decoded[currentVersion](t, got.body).Language != 4 {
			t.Error(path, got)
		}
	}
	if got := it.call("PATCH", "/v1/entities", "application/json", content(t, language4, "changes.json"), it.admin); got.status != 200 {
		t.Error(got)
	}
	if got := it.call("PATCH", "/v1/entities", "application/json", content(t, language4, "refused_changes.json"), it.admin); got.status != 422 {
		t.Error(got)
	}
	if got := it.call("POST", "/v1/validate", "text/plain", content(t, language4, "policies.cedar"), it.admin); got.status != 200 {
		t.Error(got)
	}
	if got := it.call("POST", "/v1/reload?force=true", "", "", it.admin); got.status != 200 {
		t.Error(got)
	}
	if got := it.askLines(requests); got.status != 200 || got.body != answers {
		t.Error(got)
	}
}

// The example in the language of Cedar 4 has its answers.
func TestTheExampleInLanguage4(t *testing.T) {
	it := serveExample(t, "shares", "--language", "4")
	if got := it.askLines(content(t, "shares", "requests.jsonl")); got.status != 200 || got.body != content(t, "shares", "answers.jsonl") {
		t.Error(got)
	}
}

// The default language is 3. It refuses these files, and its versions have the digests that they had before there was another language.
func TestTheDefaultLanguage(t *testing.T) {
	_, files := copied(t, language4)
	for _, words := range [][]string{nil, {"--language", "3"}} {
		settings, err := parseConfig(append(append([]string{}, files...), words...))
		if err != nil {
			t.Fatal(err)
		}
		var refusal *bobbinjade.Refusal
		if _, err := newAgent(settings, newLogger(io.Discard)); !errors.As(err, &refusal) || refusal.File != bobbinjade.Schema {
			t.Error(words, err)
		}
	}
	it := serveExample(t, "notes")
	got := decoded[currentVersion](t, it.get("/v1/version").body)
	// README.md has this digest.
	if got.Language != 3 || got.Digest != "sha256:3343dd221b5fdb4f2e7b6017c295555c06a383842b82ad9e4e841a46238c7188" {
		t.Error(got)
	}
	other := serveExample(t, "notes", "--language", "4")
	if of := decoded[currentVersion](t, other.get("/v1/version").body); of.Digest == got.Digest || of.Language != 4 {
		t.Error(of)
	}
}
