package main

import (
	"encoding/json"
	"path/filepath"
	"strings"
	"testing"
)

// Policies that permit all, and the answer to each request according to them.
const (
	permitAll       = `@id("all") permit(principal, action, resource);`
	permittedAnswer = `{"decision":"allow","determining":["all"],"erring":[]}` + "\n"
)

func TestPublishing(t *testing.T) {
	it := serveExample(t, "notes")
	if got := it.put("/v1/policies", permitAll); got.status != 200 || decoded[currentVersion](t, got.body).Version != 2 {
		t.Error(got)
	}
	if got := it.ask(line("carol", "read")); got.body != permittedAnswer || got.header.Get("Cedar-Version") != "2" {
		t.Error(got)
	}
	// The entities say who is in a team, so a policy about a team depends on them.
	team := `permit(principal == User::"ann", action, resource) when { principal in User::"ann" };`
	if got := it.put("/v1/policies", team); got.status != 200 {
		t.Error(got)
	}
	if got := it.put("/v1/entities", "[]"); got.status != 200 || decoded[currentVersion](t, got.body).Version != 4 {
		t.Error(got)
	}
	if got := it.put("/v1/schema", content(t, "notes", "schema.json")); got.status != 200 {
		t.Error(got)
	}
	wanted := map[string]string{"schema": digestOf([]byte(content(t, "notes", "schema.json"))), "policies": digestOf([]byte(team)),
		"entities": digestOf([]byte("[]"))}
	got := decoded[currentVersion](t, it.get("/v1/version").body)
	if got.Version != 5 || got.Source != "put" || len(got.Digests) != 3 {
		t.Error(got)
	}
	for file, digest := range wanted {
		if got.Digests[file] != digest {
			t.Error(file, got)
		}
	}
}

func TestPublishingLinks(t *testing.T) {
	it := serveExample(t, "repositories")
	requests := content(t, "repositories", "requests.jsonl")
	lee := strings.Split(requests, "\n")[21]
	if got := it.ask(lee); got.body != `{"decision":"allow","determining":["lee-on-main"],"erring":[]}`+"\n" {
		t.Error(got)
	}
	if got := it.put("/v1/links", ""); got.status != 200 || decoded[currentVersion](t, got.body).Digests["links"] != "" {
		t.Error(got)
	}
	if got := it.ask(lee); !strings.HasPrefix(got.body, `{"decision":"deny"`) {
		t.Error(got)
	}
	if got := it.put("/v1/links", content(t, "repositories", "links.json")); got.status != 200 {
		t.Error(got)
	}
	if got := it.askLines(requests); got.body != content(t, "repositories", "answers.jsonl") {
		t.Error(got)
	}
}

// Files of another example do not fit one by one, but all at once.
func TestPublishingSeveralFiles(t *testing.T) {
	it := serveExample(t, "notes")
	sent := map[string]any{"schema": json.RawMessage(content(t, "photos", "schema.json")), "policies": content(t, "photos", "policies.cedar"),
		"entities": json.RawMessage(content(t, "photos", "entities.json"))}
	if got := it.put("/v1/policies", content(t, "photos", "policies.cedar")); got.status != 422 {
		t.Error(got)
	}
	body, err := json.Marshal(sent)
	if err != nil {
		t.Fatal(err)
	}
	if got := it.put("/v1/files", string(body)); got.status != 200 || got.header.Get("Cedar-Version") != "2" {
		t.Error(got)
	}
	if got := it.askLines(content(t, "photos", "requests.jsonl")); got.body != content(t, "photos", "answers.jsonl") {
		t.Error(got)
	}
	for _, wrong := range []string{"", "[]", "null", "{", `{"policy":""}`, `{"policies":1}`, `{"policies":""} {}`} {
		if got := it.put("/v1/files", wrong); got.status != 400 || got.header.Get("Cedar-Version") != "" {
			t.Error(wrong, got)
		}
	}
	if got := it.metric("version"); got != "2" {
		t.Error(got)
	}
}

// explained gives the words with which the program explains the files of an example, of which one is another.
func explained(t *testing.T, example, file, text string) string {
	folder, files := copied(t, example)
	write(t, filepath.Join(folder, file), text)
	words := []string{"authorize"}
	for at := 0; at < len(files); at += 2 {
		words = append(words, files[at], filepath.Base(files[at+1]))
	}
	_, said, _ := program(t, folder, "", words...)
	return said
}

// The words of a refusal are those that the program explains the same files with.
func TestRefusedFilesChangeNothing(t *testing.T) {
	for _, broken := range []struct {
		example, path, file, text string
		wanted                    failure
	}{
		{"notes", "/v1/policies", "policies.cedar", content(t, "notes", "broken_policies.cedar"),
			failure{File: "policies", Refused: 201, Line: 4}},
		{"tenants", "/v1/policies", "policies.cedar", content(t, "tenants", "broken_policies.cedar"), failure{File: "policies"}},
		{"photos", "/v1/entities", "entities.json", content(t, "photos", "broken_entities.json"), failure{File: "entities"}},
		{"todos", "/v1/schema", "schema.json", content(t, "todos", "broken_schema.json"), failure{File: "schema"}},
		{"repositories", "/v1/links", "links.json", content(t, "repositories", "broken_links.json"), failure{File: "links"}},
		{"notes", "/v1/entities", "entities.json", `[{}]`, failure{File: "entities", Refused: 502}},
	} {
		it := serveExample(t, broken.example)
		said := explained(t, broken.example, broken.file, broken.text)
		got := it.put(broken.path, broken.text)
		why := decoded[failure](t, got.body)
		if got.status != 422 || why.Words != said || why.File != broken.wanted.File {
			t.Errorf("%v\n%s", got, said)
		}
		if broken.wanted.Refused != 0 && why.Refused != broken.wanted.Refused || broken.wanted.Line != 0 && why.Line != broken.wanted.Line {
			t.Error(got)
		}
		plain := it.request("PUT", "http://"+it.admin+broken.path, "", strings.NewReader(broken.text))
		plain.Header.Set("Accept", "text/plain")
		if got := it.send(plain); got.status != 422 || got.body != said {
			t.Error(got)
		}
		if got := it.askLines(content(t, broken.example, "requests.jsonl")); got.body != content(t, broken.example, "answers.jsonl") {
			t.Error(got)
		}
		if got := it.metric("version"); got != "1" || it.metric(`publications_total{result="refused"}`) != "2" {
			t.Error(got)
		}
	}
}

func TestOnlyTheListenerForItPublishes(t *testing.T) {
	it := serveExample(t, "notes")
	for path := range publishedPaths {
		for _, method := range []string{"PUT", "POST", "PATCH", "DELETE", "GET"} {
			if got := it.call(method, path, "", permitAll); got.status != 404 {
				t.Error(method, path, got)
			}
		}
		for _, method := range []string{"POST", "PATCH", "DELETE", "GET"} {
			if (method == "PATCH" || method == "GET") && path == "/v1/entities" {
				continue
			}
			if got := it.call(method, path, "", permitAll, it.admin); got.status != 405 || got.header.Get("Allow") != methodsOf(publishedPaths[path]) {
				t.Error(method, path, got)
			}
		}
		page := it.request("PUT", "http://"+it.admin+path, "", strings.NewReader(permitAll))
		page.Header.Set("Origin", "http://"+it.admin)
		if got := it.send(page); got.status != 403 {
			t.Error(path, got)
		}
	}
	if got := it.call("POST", "/v1/authorize", "application/json", line("ann", "write"), it.admin); got.status != 404 {
		t.Error(got)
	}
	if got := it.metric("version"); got != "1" {
		t.Error(got)
	}
}

func TestValidating(t *testing.T) {
	it := serveExample(t, "notes")
	folder, _ := copied(t, "notes")
	validate := func(body string, words bool) reply {
		request := it.request("POST", "http://"+it.admin+"/v1/validate", "text/plain", strings.NewReader(body))
		if words {
			request.Header.Set("Accept", "text/plain")
		}
		return it.send(request)
	}
	for _, policies := range []string{content(t, "notes", "policies.cedar"), permitAll, "",
		"permit(principal, action, resource) when { principal.age > 1 };", "permit(principal, action, resource) when { false };"} {
		write(t, folder+"/policies.cedar", policies)
		report, said, status := program(t, folder, "", "validate", "--schema", "schema.json", "--policies", "policies.cedar")
		wanted := map[int]int{0: 200, 3: 422}[status]
		if got := validate(policies, false); got.status != wanted || got.body != report {
			t.Error(policies, got, report)
		}
		if got := validate(policies, true); status == 3 && (got.status != 422 || got.body != said) {
			t.Error(policies, got, said)
		}
	}
	got := validate(content(t, "notes", "broken_policies.cedar"), false)
	if got.status != 422 || decoded[failure](t, got.body).Refused != 201 {
		t.Error(got)
	}
	if got := it.metric("version"); got != "1" {
		t.Error(got)
	}
}

func TestNoValidations(t *testing.T) {
	it := serveExample(t, "notes", "--max-validations", "0")
	if got := it.call("POST", "/v1/validate", "", permitAll, it.admin); got.status != 404 {
		t.Error(got)
	}
}

func TestValidatingSeveralFiles(t *testing.T) {
	it := serveExample(t, "repositories")
	for body, status := range map[string]int{`{}`: 200, `{"links":[]}`: 200, `{"x":1}`: 400,
		`{"policies":"permit(principal, action, resource);","links":[]}`: 200, `{"policies":"permit(principal, action, resource);"}`: 422} {
		if got := it.call("POST", "/v1/validate", "application/json", body, it.admin); got.status != status {
			t.Error(body, got)
		}
	}
	// Without the template the links of the example are refused: docs/REFUSALS.md, 210.
	got := it.call("POST", "/v1/validate", "application/json", `{"policies":"permit(principal, action, resource);"}`, it.admin)
	if why := decoded[failure](t, got.body); why.File != "links" || why.Refused != 210 {
		t.Error(got)
	}
}

// An object of several files is read as it is sent, or refused: nothing of it is replaced, left out or guessed.
func TestSeveralFilesAreExact(t *testing.T) {
	it := serveExample(t, "notes", "--public-validate")
	for _, body := range []string{
		"{\"policies\":\"@id(\\\"\xff\\\") permit(principal, action, resource);\"}",
		`{"policies":"@id(\"\ud800\") permit(principal, action, resource);"}`, `{"policies":"@id(\"\udc00\ud800\") permit(principal, action, resource);"}`,
		`{"policies":"@id(\"\ud800x\") permit(principal, action, resource);"}`,
		`{"policies":""}}`, `{"policies":""}]`, `{"policies":""}x`, `{"policies":""}{}`, `{"policies":""},`, `{"POLICIES":""}`, `{"Policies":""}`,
		`{"policies":null}`, `{"policies":1}`, `{"policies":"","policies":""}`, `{"policies":"","other":""}`, `[]`, `null`, ``, `{`, `{"policies"`, `{"policies":""`,
		`{"policies":"",}`, `{policies:""}`} {
		for _, got := range []reply{it.put("/v1/files", body), it.call("POST", "/v1/validate", "application/json", body)} {
			if got.status != 400 || !strings.HasPrefix(got.body, `{"error":"the body is not an object with some of`) {
				t.Error(body, got)
			}
		}
	}
	for _, body := range []string{`{}`, " {\n} \n", `{"policies":"// \\ud800\n@id(\"\ud83d\ude00\ufffd\") permit(principal, action, resource);"}`,
		"{\"policies\":\"@id(\\\"\uFFFD\\\") permit(principal, action, resource);\"}"} {
		if got := it.put("/v1/files", body); got.status != 200 {
			t.Error(body, got)
		}
	}
}
