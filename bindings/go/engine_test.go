package bobbinjade

import (
	"bytes"
	"context"
	"encoding/json"
	"errors"
	"fmt"
	"os"
	"path/filepath"
	"runtime"
	"strconv"
	"strings"
	"sync"
	"sync/atomic"
	"testing"
	"time"
)

const folder = "../../examples"

// An example of this repository: its files, its request lines and what the program answers.
type example struct {
	files    Files
	requests string
	answers  string
	report   string
}

func content(name, file string) []byte {
	text, err := os.ReadFile(filepath.Join(folder, name, file))
	if err != nil && !errors.Is(err, os.ErrNotExist) {
		panic(err)
	}
	return text
}

func exampleOf(name string) example {
	return example{
		files: Files{Schema: content(name, "schema.json"), Policies: content(name, "policies.cedar"), Links: content(name, "links.json"),
			Entities: content(name, "entities.json")},
		requests: string(content(name, "requests.jsonl")),
		answers:  string(content(name, "answers.jsonl")),
		report:   string(content(name, "report.jsonl")),
	}
}

func examples(t *testing.T) []example {
	found, err := filepath.Glob(filepath.Join(folder, "*", "answers.jsonl"))
	if err != nil || len(found) == 0 {
		t.Fatal("no examples: ", err)
	}
	var all []example
	for _, path := range found {
		// An example with options is of the program alone.
		if _, err := os.Stat(filepath.Join(filepath.Dir(path), "options")); err == nil {
			continue
		}
		all = append(all, exampleOf(filepath.Base(filepath.Dir(path))))
	}
	return all
}

func engineOf(t *testing.T, files Files) *Engine {
	t.Helper()
	engine, err := New(files)
	if err != nil {
		t.Fatal(err)
	}
	return engine
}

// ask makes a request of examples/notes.
func ask(principal, action string) Request {
	return Request{Principal: UID{"User", principal}, Action: UID{"Action", action}, Resource: UID{"Notebook", "plans"}}
}

// requestOf gives the request that a line of the examples denotes; it is false where the line does not read as one.
func requestOf(line string) (Request, bool) {
	var read struct {
		Principal, Action, Resource string
		Context                     json.RawMessage
	}
	decoder := json.NewDecoder(strings.NewReader(line))
	decoder.DisallowUnknownFields()
	if decoder.Decode(&read) != nil {
		return Request{}, false
	}
	principal, isOne := ParseUID(read.Principal)
	action, isTwo := ParseUID(read.Action)
	resource, isThree := ParseUID(read.Resource)
	return Request{principal, action, resource, read.Context}, isOne && isTwo && isThree
}

// written gives the answer line of a response.
func written(response Response) string {
	type erring struct {
		Error  string `json:"error"`
		Policy string `json:"policy"`
	}
	line := struct {
		Decision    string   `json:"decision"`
		Determining []string `json:"determining"`
		Erring      []erring `json:"erring"`
	}{"deny", append([]string{}, response.Determining...), []erring{}}
	if response.Allowed {
		line.Decision = "allow"
	}
	for _, it := range response.Erring {
		line.Erring = append(line.Erring, erring{it.Error, it.Policy})
	}
	text, _ := json.Marshal(line)
	return string(text)
}

func TestLinesAtOnceAndOneByOne(t *testing.T) {
	for _, it := range examples(t) {
		engine := engineOf(t, it.files)
		if text, err := engine.Answer([]byte(it.requests)); err != nil || string(text) != it.answers {
			t.Error(err, string(text))
		}
		if text, err := engine.AnswerWithEntities([]byte(it.requests)); err != nil || string(text) != it.answers {
			t.Error(err, string(text))
		}
		wanted := strings.Split(it.answers, "\n")
		for at, line := range strings.Split(strings.TrimSuffix(it.requests, "\n"), "\n") {
			if text, err := engine.AnswerLine([]byte(line)); err != nil || string(text) != wanted[at] {
				t.Error(err, line, string(text))
			}
		}
	}
}

func TestAppending(t *testing.T) {
	for _, it := range examples(t) {
		engine := engineOf(t, it.files)
		for _, room := range []int{0, 1, 1 << 16} {
			text := append(make([]byte, 0, room+3), "abc"...)
			text, err := engine.AppendAnswer(text, []byte(it.requests))
			if err != nil || string(text) != "abc"+it.answers {
				t.Error(err, room, string(text))
			}
		}
		wanted, text := strings.Split(it.answers, "\n"), []byte{}
		for at, line := range strings.Split(strings.TrimSuffix(it.requests, "\n"), "\n") {
			var err error
			if text, err = engine.AppendAnswerLine(text[:0], []byte(line)); err != nil || string(text) != wanted[at] {
				t.Error(err, line, string(text))
			}
		}
		line, room := []byte(strings.Split(it.requests, "\n")[0]), make([]byte, 0, 4096)
		if count := testing.AllocsPerRun(100, func() { _, _ = engine.AppendAnswerLine(room, line) }); count >= 1 {
			t.Error(count, "allocations")
		}
	}
	engine := engineOf(t, exampleOf("notes").files)
	if text, err := engine.AppendAnswer(nil, nil); err != nil || len(text) != 0 {
		t.Error(err, string(text))
	}
}

func TestByParts(t *testing.T) {
	count := 0
	for _, it := range examples(t) {
		engine := engineOf(t, it.files)
		wanted := strings.Split(it.answers, "\n")
		for at, line := range strings.Split(strings.TrimSuffix(it.requests, "\n"), "\n") {
			request, isCut := requestOf(line)
			if !isCut {
				continue
			}
			count++
			response, err := engine.Authorize(context.Background(), request)
			isAllowed, otherErr := engine.Decide(context.Background(), request)
			got := written(response)
			var refusal, other *RequestRefusal
			if errors.As(err, &refusal) && errors.As(otherErr, &other) && refusal.Number == other.Number && refusal.Words() == other.Words() {
				got = fmt.Sprintf(`{"refused":%d}`, refusal.Number)
				words, err := engine.ExplainLine([]byte(line))
				if err != nil || words != refusal.Words() || !strings.HasPrefix(words, fmt.Sprintf("error[%d]: ", refusal.Number)) {
					t.Error(err, line, words, refusal.Words())
				}
			} else if err != nil || otherErr != nil {
				t.Error(err, otherErr)
			}
			if got != wanted[at] || isAllowed != response.Allowed {
				t.Error(line, got)
			}
		}
	}
	if count <= 60 {
		t.Error("only", count, "lines were cut")
	}
}

func TestWordsOfRequests(t *testing.T) {
	engine := engineOf(t, exampleOf("notes").files)
	request := Request{Principal: UID{"User", "ann"}, Action: UID{"Action", "fly"}, Resource: UID{"Notebook", "plans"}}
	_, err := engine.Decide(context.Background(), request)
	var refusal *RequestRefusal
	wanted := "error[510]: an action is not declared\n --> request\n   = action: Action::\"fly\" is not declared\n"
	if !errors.As(err, &refusal) || refusal.Number != 510 || refusal.Words() != wanted || err.Error() != strings.TrimSpace(wanted) {
		t.Error(err)
	}
	line := `{"principal":"User::\"ann\"","action":"Action::\"write\"","resource":"Notebook::\"plans\""`
	if words, err := engine.ExplainLine([]byte(line + "}")); err != nil || words != "" {
		t.Error(err, words)
	}
	brings := []byte(line + `,"entities":[{"uid":{"type":"Ghost","id":"g"}}]}`)
	if words, err := engine.ExplainLine(brings); err != nil || !strings.HasPrefix(words, "error[502]: ") {
		t.Error(err, words)
	}
	if words, err := engine.ExplainLineWithEntities(brings); err != nil || !strings.HasPrefix(words, "error[503]: ") {
		t.Error(err, words)
	}
	engine.Close()
	if _, err := engine.ExplainLine(brings); !errors.Is(err, ErrClosed) {
		t.Error(err)
	}
	if refusal.Words() != "" || refusal.Error() != "bobbinjade: the request is refused: 510" {
		t.Error(refusal)
	}
}

func TestReports(t *testing.T) {
	for _, it := range examples(t) {
		report, err := Validate(it.files)
		if err != nil || !report.Accepted || report.Text != it.report {
			t.Error(err, report)
		}
		if words, err := Explain(it.files); err != nil || words != "" {
			t.Error(err, words)
		}
	}
}

func TestRefusals(t *testing.T) {
	it := exampleOf("notes")
	engine := engineOf(t, it.files)
	for at, wanted := range []Refusal{{Policies, 201, 128, 4, ""}, {Schema, 301, -1, 1, ""}, {Links, 502, -1, 0, ""}, {Entities, 502, -1, 0, ""}} {
		files := it.files
		switch wanted.File {
		case Schema:
			files.Schema = []byte("{")
		case Policies:
			files.Policies = content("notes", "broken_policies.cedar")
		case Links:
			files.Links = []byte("{}")
		case Entities:
			files.Entities = []byte("{}")
		}
		var refusal *Refusal
		if err := engine.Publish(files); !errors.As(err, &refusal) {
			t.Fatal(at, err)
		}
		if words := fmt.Sprintf("error[%d]: ", wanted.Number); !strings.HasPrefix(refusal.Words, words) {
			t.Error(refusal.Words)
		}
		wanted.Words = refusal.Words
		if *refusal != wanted {
			t.Error(*refusal)
		}
		if _, err := New(files); !errors.As(err, &refusal) {
			t.Error(err)
		}
		if _, err := Validate(files); wanted.File != Entities && !errors.As(err, &refusal) {
			t.Error(err)
		}
	}
	if text, err := engine.Answer([]byte(it.requests)); err != nil || string(text) != it.answers {
		t.Error(err, string(text))
	}
}

// The example in the language of Cedar 4 has its answers.
func TestTheExampleInLanguage4(t *testing.T) {
	it := exampleOf("shares")
	it.files.Language = Language4
	if text, err := engineOf(t, it.files).Answer([]byte(it.requests)); err != nil || string(text) != it.answers {
		t.Error(err, string(text))
	}
}

// Files of the language of Cedar 4 are refused in the default language, and an unknown language is refused.
func TestLanguages(t *testing.T) {
	here := filepath.Join("..", "..", "tests", "bindings", "language_4")
	read := func(file string) []byte {
		text, err := os.ReadFile(filepath.Join(here, file))
		if err != nil {
			t.Fatal(err)
		}
		return text
	}
	files := Files{Schema: read("schema.json"), Policies: read("policies.cedar"), Entities: read("entities.json")}
	var refusal *Refusal
	for _, language := range []Language{0, Language3} {
		files.Language = language
		if _, err := New(files); !errors.As(err, &refusal) || refusal.File != Schema || refusal.Number != 303 {
			t.Error(err)
		}
	}
	files.Language = Language4
	engine := engineOf(t, files)
	if text, err := engine.Answer(read("requests.jsonl")); err != nil || string(text) != string(read("answers.jsonl")) {
		t.Error(err, string(text))
	}
	if report, err := Validate(files); err != nil || !report.Accepted {
		t.Error(err, report)
	}
	if words, err := Explain(files); err != nil || words != "" {
		t.Error(err, words)
	}
	err := engine.PublishChanges(read("refused_changes.json"))
	if !errors.As(err, &refusal) || !strings.Contains(refusal.Words, `upsert entry 0 (from 0), User::"bob"`) {
		t.Error(err)
	}
	if err := engine.PublishChanges(read("changes.json")); err != nil {
		t.Error(err)
	}
	asked := Request{Principal: UID{"User", "bob"}, Action: UID{"Action", "read"}, Resource: UID{"Doc", "d"}}
	if isAllowed, err := engine.Decide(context.Background(), asked); err != nil || !isAllowed {
		t.Error(err, isAllowed)
	}
	for _, language := range []Language{1, 2, 5, 4 + 1<<31} {
		files.Language = language
		_, made := New(files)
		_, judged := Validate(files)
		_, explained := Explain(files)
		parts := ValidateParts(files, AllLines)
		if made != ErrLanguage || judged != ErrLanguage || explained != ErrLanguage || engine.Publish(files) != ErrLanguage ||
			parts.Next() || parts.Err() != ErrLanguage {
			t.Error(language, made, judged, explained, parts.Err())
		}
	}
}

func TestEntities(t *testing.T) {
	it := exampleOf("photos")
	broken := content("photos", "broken_entities.json")
	noFriends := bytes.Replace(it.files.Entities, []byte(`, "parents": [{ "type": "UserGroup", "id": "jane_friends" }]`), nil, 1)
	asked := Request{Principal: UID{"User", "ann"}, Action: UID{"Action", "view"}, Resource: UID{"Photo", "beach"}}
	engine := engineOf(t, it.files)
	for _, step := range []struct {
		entities []byte
		number   uint32
		wanted   string
	}{
		{it.files.Entities, 0, `{"decision":"allow","determining":["shared-with-friends"],"erring":[]}`},
		{noFriends, 0, `{"decision":"deny","determining":[],"erring":[]}`},
		{broken, 506, `{"decision":"deny","determining":[],"erring":[]}`},
		{nil, 501, `{"decision":"deny","determining":[],"erring":[]}`},
		// The beach is not stored, and `private` reads an attribute of it.
		{[]byte("[]"), 0, `{"decision":"deny","determining":[],"erring":[{"error":"missing_entity","policy":"private"}]}`},
	} {
		err := engine.PublishEntities(step.entities)
		var refusal, other *Refusal
		if step.number == 0 && err != nil || step.number != 0 && (!errors.As(err, &refusal) || refusal.Number != step.number) {
			t.Fatal(step.number, err)
		}
		if refusal != nil {
			files := it.files
			files.Entities = step.entities
			if err := engine.Publish(files); !errors.As(err, &other) || *other != *refusal || refusal.File != Entities || refusal.Offset != -1 {
				t.Error(err, *refusal)
			}
		}
		if response, err := engine.Authorize(context.Background(), asked); err != nil || written(response) != step.wanted {
			t.Error(err, response)
		}
	}
	var refusal *Refusal
	if err := engine.PublishEntities(broken); !errors.As(err, &refusal) || refusal.Line != 3 ||
		!strings.HasPrefix(refusal.Words, "error[506]: an attribute is not declared\n") {
		t.Error(err)
	}
}

func TestSwappedEntities(t *testing.T) {
	for _, it := range examples(t) {
		entities := it.files.Entities
		it.files.Entities = []byte("[]")
		engine := engineOf(t, it.files)
		if err := engine.PublishEntities(entities); err != nil {
			t.Error(err)
		}
		if text, err := engine.Answer([]byte(it.requests)); err != nil || string(text) != it.answers {
			t.Error(err, string(text))
		}
	}
}

func TestFaults(t *testing.T) {
	it := exampleOf("notes")
	it.files.Policies = bytes.Repeat([]byte("permit(principal, action, resource) when { principal.age > 1 };"), 200)
	_, err := New(it.files)
	var faults *Faults
	if !errors.As(err, &faults) {
		t.Fatal(err)
	}
	if !strings.HasSuffix(faults.Report, "{\"faults\":600,\"warnings\":0}\n") || !strings.HasPrefix(faults.Words, "error[603]: ") {
		t.Error(faults.Report, faults.Words)
	}
	if report, err := Validate(it.files); err != nil || report.Accepted || report.Text != faults.Report {
		t.Error(report, err)
	}
}

func TestRequests(t *testing.T) {
	engine := engineOf(t, exampleOf("notes").files)
	noName, list, undeclared := ask("ann", "write"), ask("ann", "write"), ask("ann", "write")
	noName.Principal.Type, list.Context, undeclared.Context = "no name", []byte("["), []byte(`{"n":1}`)
	for number, request := range map[uint32]Request{502: noName, 501: list, 506: undeclared, 510: ask("ann", "fly")} {
		var refusal *RequestRefusal
		if _, err := engine.Authorize(context.Background(), request); !errors.As(err, &refusal) || refusal.Number != number {
			t.Error(number, err)
		}
	}
	ended, end := context.WithCancel(context.Background())
	end()
	if _, err := engine.Authorize(ended, ask("ann", "write")); !errors.Is(err, context.Canceled) {
		t.Error(err)
	}
}

func TestRoom(t *testing.T) {
	it := exampleOf("notes")
	it.files.Policies = nil
	for at := 0; at < 400; at++ {
		it.files.Policies = append(it.files.Policies, fmt.Sprintf("@id(\"a long name of a policy, number %d\") permit(principal, action, resource);", at)...)
	}
	engine := engineOf(t, it.files)
	response, err := engine.Authorize(context.Background(), ask("ann", "write"))
	if err != nil || len(response.Determining) != 400 {
		t.Error(response, err)
	}
	if line, err := engine.AnswerLine([]byte(strings.Split(it.requests, "\n")[0])); err != nil || string(line) != written(response) {
		t.Error(err, string(line))
	}
}

func TestAnswerLines(t *testing.T) {
	for line, wanted := range map[string]Response{
		`{"decision":"deny","determining":[],"erring":[]}`:                                                        {Determining: []string{}},
		`{"decision":"deny","determining":["a,b","]}"],"erring":[{"error":"overflow","policy":"c},{"}]}`:          {false, []string{"a,b", "]}"}, []Erring{{"c},{", "overflow"}}},
		`{"decision":"deny","determining":["\"\u00e9\\"],"erring":[{"error":"decimal","policy":"\ud83d\ude00"}]}`: {false, []string{`"é\`}, []Erring{{"😀", "decimal"}}},
		`{"decision":"deny","determining":["","a",""],"erring":[{"error":"overflow","policy":""},{"error":"decimal","policy":"d"}]}`: {false,
			[]string{"", "a", ""}, []Erring{{"", "overflow"}, {"d", "decimal"}}},
	} {
		response, err := responseOf([]byte(line), false)
		if err != nil || fmt.Sprintf("%#v", response.Determining) != fmt.Sprintf("%#v", wanted.Determining) ||
			fmt.Sprint(response.Erring) != fmt.Sprint(wanted.Erring) {
			t.Errorf("%v: %#v", err, response)
		}
	}
	for _, line := range []string{``, `{"decision":"deny","determining":["a"]`, `{"decision":"deny","determining":["\`} {
		if response, err := responseOf([]byte(line), false); err == nil {
			t.Error(line, response)
		}
	}
}

func TestClosing(t *testing.T) {
	it := exampleOf("notes")
	engine := engineOf(t, it.files)
	for range []int{1, 2} {
		if err := engine.Close(); err != nil {
			t.Error(err)
		}
	}
	_, authorized := engine.Authorize(context.Background(), ask("ann", "write"))
	_, decided := engine.Decide(context.Background(), ask("ann", "write"))
	_, answered := engine.Answer(nil)
	_, line := engine.AnswerLine(nil)
	_, brought := engine.AnswerWithEntities(nil)
	_, appended := engine.AppendAnswer(nil, nil)
	_, appendedLine := engine.AppendAnswerLine(nil, nil)
	_, appendedBrought := engine.AppendAnswerWithEntities(nil, nil)
	for _, err := range []error{authorized, decided, answered, line, brought, appended, appendedLine, appendedBrought,
		engine.Publish(it.files), engine.PublishEntities(it.files.Entities)} {
		if !errors.Is(err, ErrClosed) {
			t.Error(err)
		}
	}
}

func TestUIDs(t *testing.T) {
	if uid, isOne := ParseUID(`A::B::"c d"`); !isOne || uid != (UID{"A::B", "c d"}) {
		t.Error(uid)
	}
	for _, text := range []string{"", "A", `A::`, `A::"`, `::"a"`, `A:"a"`, `A ::"a"`, `A::"a\"b"`, `A::"a"b"`, `A::"a`} {
		if uid, isOne := ParseUID(text); isOne {
			t.Error(text, uid)
		}
	}
}

func TestVersion(t *testing.T) {
	if version, err := Version(); err != nil || strings.Count(version, ".") != 2 {
		t.Error(version, err)
	}
}

// How many versions have an id of their own.
const versions = 1000

// policies gives the policies of a version, whose id is its number. Even versions permit, and odd ones forbid.
func policies(number int64, principal string) []byte {
	return []byte(fmt.Sprintf("@id(\"%d\") %s(%s, action, resource);", number%versions, []string{"permit", "forbid"}[number%2], principal))
}

// isOfVersion says whether an answer is that of one of these versions.
func isOfVersion(response *Response, first, last int64) bool {
	answered, _ := strconv.ParseInt(response.Determining[0], 10, 64)
	for number := first; number <= last; number++ {
		if number%versions == answered {
			return response.Allowed == (number%2 == 0)
		}
	}
	return false
}

// Entities that are published alone meanwhile bring no older policies back.
func TestVersionsSwapWhileRequestsRun(t *testing.T) {
	files := exampleOf("notes").files
	files.Policies = policies(0, "principal")
	engine := engineOf(t, files)
	swap(t, engine, func(number int64) error {
		files.Policies = policies(number, "principal")
		return engine.Publish(files)
	}, func() error { return engine.PublishEntities([]byte("[]")) })
}

// Ann is in the group of the number of the version, and each group has a policy. Entities that are refused meanwhile change nothing.
func TestEntitiesSwapWhileRequestsRun(t *testing.T) {
	files := Files{Schema: []byte(`{"":{"entityTypes":{"Group":{},"User":{"memberOfTypes":["Group"]},"Notebook":{}},
		"actions":{"write":{"appliesTo":{"principalTypes":["User"],"resourceTypes":["Notebook"]}}}}}`)}
	for number := int64(0); number < versions; number++ {
		files.Policies = append(files.Policies, policies(number, fmt.Sprintf("principal in Group::\"%d\"", number))...)
	}
	entities := func(number int64) []byte {
		return []byte(fmt.Sprintf(`[{"uid":{"type":"User","id":"ann"},"parents":[{"type":"Group","id":"%d"}]}]`, number%versions))
	}
	files.Entities = entities(0)
	engine := engineOf(t, files)
	swap(t, engine, func(number int64) error { return engine.PublishEntities(entities(number)) }, func() error {
		var refusal *Refusal
		if err := engine.PublishEntities([]byte("{}")); !errors.As(err, &refusal) {
			return fmt.Errorf("it is not refused: %v", err)
		}
		return nil
	})
}

// swap has eight goroutines ask while versions are published and, in another goroutine, something else is done again and again.
func swap(t *testing.T, engine *Engine, publish func(int64) error, meanwhile func() error) {
	var begun, done, count atomic.Int64
	var isOver atomic.Bool
	var asking sync.WaitGroup
	asking.Add(1)
	go func() {
		defer asking.Done()
		for !isOver.Load() {
			if err := meanwhile(); err != nil {
				t.Error(err)
				return
			}
		}
	}()
	for i := 0; i < 8; i++ {
		asking.Add(1)
		go func() {
			defer asking.Done()
			for !isOver.Load() {
				first := done.Load()
				response, err := engine.Authorize(context.Background(), ask("ann", "write"))
				last := begun.Load()
				if err != nil {
					t.Error(err)
					return
				}
				if !isOfVersion(&response, first, last) {
					t.Error(response, first, last)
				}
				count.Add(1)
			}
		}()
	}
	seconds, _ := strconv.ParseFloat(os.Getenv("BOBBINJADE_SECONDS"), 64)
	if seconds == 0 {
		seconds = 1
	}
	for end := time.Now().Add(time.Duration(seconds * float64(time.Second))); time.Now().Before(end); {
		if err := publish(begun.Add(1)); err != nil {
			t.Error(err)
		}
		done.Store(begun.Load())
		if begun.Load()%64 == 0 {
			runtime.GC()
		}
	}
	isOver.Store(true)
	asking.Wait()
	t.Log(count.Load(), "answers,", done.Load(), "versions")
	if count.Load() <= 8 || done.Load() <= 1 {
		t.Error("too few answers or versions")
	}
}

func BenchmarkDecide(b *testing.B) {
	engine, err := New(exampleOf("notes").files)
	if err != nil {
		b.Fatal(err)
	}
	request := ask("ann", "write")
	b.RunParallel(func(it *testing.PB) {
		for it.Next() {
			_, _ = engine.Decide(context.Background(), request)
		}
	})
}

func BenchmarkAuthorize(b *testing.B) {
	engine, err := New(exampleOf("notes").files)
	if err != nil {
		b.Fatal(err)
	}
	request := ask("ann", "write")
	b.RunParallel(func(it *testing.PB) {
		for it.Next() {
			_, _ = engine.Authorize(context.Background(), request)
		}
	})
}

// A hundred lines a call: the lines of examples/notes, over and over.
func BenchmarkAppendAnswer(b *testing.B) {
	it := exampleOf("notes")
	engine, err := New(it.files)
	if err != nil {
		b.Fatal(err)
	}
	lines := []byte(strings.Join(strings.SplitAfterN(strings.Repeat(it.requests, 13), "\n", 101)[:100], ""))
	b.RunParallel(func(it *testing.PB) {
		text := make([]byte, 0, len(lines)+256)
		for it.Next() {
			_, _ = engine.AppendAnswer(text, lines)
		}
	})
}
