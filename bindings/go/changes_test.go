package bobbinjade

import (
	"bytes"
	"context"
	"errors"
	"fmt"
	"path/filepath"
	"strings"
	"testing"
)

// Staff may view. Bob is in the team, and the team in the staff. Ann is not stored.
const changesSchema = `{"":{"entityTypes":{"Group":{"memberOfTypes":["Group"]},"User":{"memberOfTypes":["Group"],
	"shape":{"type":"Record","attributes":{"age":{"type":"Long"}}}}},
	"actions":{"view":{"appliesTo":{"principalTypes":["User"],"resourceTypes":["Group"]}}}}}`

func uidText(typeName, id string) string {
	return fmt.Sprintf(`{"type":"%s","id":"%s"}`, typeName, id)
}

func entryText(typeName, id, attrs string, parents ...string) string {
	for at, parent := range parents {
		parents[at] = uidText("Group", parent)
	}
	return fmt.Sprintf(`{"uid":%s,"attrs":%s,"parents":[%s]}`, uidText(typeName, id), attrs, strings.Join(parents, ","))
}

func ann() string {
	return entryText("User", "ann", `{"age":30}`, "team")
}

func upsert(entries ...string) []byte {
	return []byte(`{"upsert":[` + strings.Join(entries, ",") + `]}`)
}

func remove(uids ...string) []byte {
	return []byte(`{"remove":[` + strings.Join(uids, ",") + `]}`)
}

func staffEngine(t *testing.T) *Engine {
	entities := []string{entryText("Group", "staff", "{}"), entryText("Group", "team", "{}", "staff"), entryText("User", "bob", `{"age":1}`, "team")}
	return engineOf(t, Files{
		Schema:   []byte(changesSchema),
		Policies: []byte(`@id("staff") permit(principal in Group::"staff", action, resource);`),
		Entities: []byte("[" + strings.Join(entities, ",") + "]"),
	})
}

func may(t *testing.T, engine *Engine, who string) bool {
	request := Request{Principal: UID{"User", who}, Action: UID{"Action", "view"}, Resource: UID{"Group", "staff"}}
	isAllowed, err := engine.Decide(context.Background(), request)
	if err != nil {
		t.Fatal(err)
	}
	return isAllowed
}

// isWho says whether ann may view, and bob, as it is wanted.
func isWho(t *testing.T, engine *Engine, ann, bob bool) bool {
	return may(t, engine, "ann") == ann && may(t, engine, "bob") == bob
}

func changed(t *testing.T, engine *Engine, changes []byte) {
	if err := engine.PublishChanges(changes); err != nil {
		t.Fatal(string(changes), err)
	}
}

func withChanges(t *testing.T, engine *Engine, changes []byte) *Engine {
	other, err := engine.WithChanges(changes)
	if err != nil {
		t.Fatal(string(changes), err)
	}
	return other
}

func TestChanges(t *testing.T) {
	engine := staffEngine(t)
	before := withChanges(t, engine, []byte("{}"))
	if !isWho(t, engine, false, true) {
		t.Error("bob alone is of the staff")
	}
	changed(t, engine, upsert(ann()))
	if !isWho(t, engine, true, true) || !isWho(t, before, false, true) {
		t.Error("an upsert is not seen, or is seen by the engine before it")
	}
	changed(t, engine, remove(uidText("User", "ann"), uidText("User", "nobody")))
	if !isWho(t, engine, false, true) {
		t.Error("a removal is not seen")
	}
	changed(t, engine, upsert(entryText("Group", "team", "{}")))
	if !isWho(t, engine, false, false) || !isWho(t, before, false, true) {
		t.Error("the team has left the staff")
	}
	if err := engine.Close(); err != nil {
		t.Error(err)
	}
	if err := engine.PublishChanges([]byte("{}")); !errors.Is(err, ErrClosed) {
		t.Error(err)
	}
	if _, err := engine.WithChanges([]byte("{}")); !errors.Is(err, ErrClosed) {
		t.Error(err)
	}
	if !isWho(t, before, false, true) {
		t.Error("the engine before the changes has lost its entities")
	}
}

func TestRefusedChanges(t *testing.T) {
	engine := staffEngine(t)
	for _, it := range []struct {
		number uint32
		text   []byte
	}{
		{401, upsert(ann(), ann())},
		{401, remove(uidText("User", "ann"), uidText("User", "ann"))},
		{402, upsert(entryText("Group", "staff", "{}", "team"))},
		{501, nil},
		{501, []byte(`{"upsert":[`)},
		{502, []byte("[]")},
		{502, []byte(`{"removed":[]}`)},
		{503, upsert(entryText("Ghost", "g", "{}"))},
		{504, upsert(entryText("User", "ann", `{"age":"30"}`))},
		{505, upsert(entryText("User", "ann", "{}"))},
		{506, upsert(entryText("Group", "team", `{"age":1}`))},
		{508, remove(uidText("Action", "view"))},
		{509, upsert(entryText("User", "ann", `{"age":1.5}`))},
	} {
		_, other := engine.WithChanges(it.text)
		for _, err := range []error{engine.PublishChanges(it.text), other} {
			var refusal *Refusal
			if !errors.As(err, &refusal) || refusal.File != Entities || refusal.Number != it.number || refusal.Offset != -1 {
				t.Fatal(string(it.text), err)
			}
			if !strings.HasPrefix(refusal.Words, fmt.Sprintf("error[%d]: ", it.number)) {
				t.Error(refusal.Words)
			}
		}
		if !isWho(t, engine, false, true) {
			t.Error("refused changes have changed something:", string(it.text))
		}
	}
}

func TestManyChanges(t *testing.T) {
	engine := staffEngine(t)
	for number := 0; number < 1000; number++ {
		next, last := fmt.Sprint("u", number), fmt.Sprint("u", number-1)
		changed(t, engine, bytes.Join([][]byte{[]byte(`{"upsert":[` + entryText("User", next, `{"age":1}`, "team") + `]`),
			[]byte(`"remove":[` + uidText("User", last) + `]}`)}, []byte(",")))
		if !may(t, engine, next) || may(t, engine, last) || !may(t, engine, "bob") {
			t.Fatal(number)
		}
	}
}

// What is kept of changes, as docs/DATA.md has it.
func TestKeptChanges(t *testing.T) {
	engine := staffEngine(t)
	isKept := func(it *Engine, least, most uint64) {
		t.Helper()
		if count, err := it.KeptChanges(); err != nil || count < least || count > most {
			t.Error(count, err)
		}
	}
	var entries, uids []string
	for number := 0; number < 1000; number++ {
		entries = append(entries, entryText("User", fmt.Sprint("u", number), `{"age":1}`))
		uids = append(uids, uidText("User", fmt.Sprint("u", number)))
	}
	isKept(engine, 0, 0)
	changed(t, engine, upsert(entries...))
	isKept(engine, 1000, 1000)
	isKept(withChanges(t, engine, upsert(ann())), 1001, 1001)
	changed(t, engine, remove(uids...))
	isKept(engine, 0, 126)
	changed(t, engine, remove(uidText("User", "bob")))
	isKept(engine, 1, 128)
	if err := engine.PublishEntities([]byte("[]")); err != nil {
		t.Error(err)
	}
	isKept(engine, 0, 0)
	_ = engine.Close()
	for _, it := range []*Engine{engine, {}} {
		if count, err := it.KeptChanges(); !errors.Is(err, ErrClosed) || count != 0 {
			t.Error(count, err)
		}
	}
}

// A request that brings its entities: no other request sees them.
func TestRequestsWithEntities(t *testing.T) {
	engine := staffEngine(t)
	for range make([]struct{}, 10) {
		other := withChanges(t, engine, upsert(ann()))
		if !isWho(t, other, true, true) || !isWho(t, engine, false, true) {
			t.Error("the entities of a request are not seen, or seen by the next")
		}
		if err := other.Close(); err != nil {
			t.Error(err)
		}
	}
}

func TestUpsertedEntities(t *testing.T) {
	for _, it := range examples(t) {
		entities := it.files.Entities
		it.files.Entities = []byte("[]")
		engine := engineOf(t, it.files)
		changed(t, engine, append(append([]byte(`{"upsert":`), entities...), '}'))
		if text, err := engine.Answer([]byte(it.requests)); err != nil || string(text) != it.answers {
			t.Error(err, string(text))
		}
	}
}

// Ann is in the group of the number of the version, as in TestEntitiesSwapWhileRequestsRun. Another goroutine asks over changes of its own.
func TestChangesSwapWhileRequestsRun(t *testing.T) {
	files := Files{Entities: []byte("[]"), Schema: []byte(`{"":{"entityTypes":{"Group":{},"User":{"memberOfTypes":["Group"]},"Notebook":{}},
		"actions":{"write":{"appliesTo":{"principalTypes":["User"],"resourceTypes":["Notebook"]}}}}}`)}
	for number := int64(0); number < versions; number++ {
		files.Policies = append(files.Policies, policies(number, fmt.Sprintf("principal in Group::\"%d\"", number))...)
	}
	changes := func(number int64) []byte {
		return upsert(fmt.Sprintf(`{"uid":{"type":"User","id":"ann"},"parents":[{"type":"Group","id":"%d"}]}`, number%versions))
	}
	engine := engineOf(t, files)
	changed(t, engine, changes(0))
	swap(t, engine, func(number int64) error { return engine.PublishChanges(changes(number)) }, func() error {
		other, err := engine.WithChanges(remove(uidText("User", "ann")))
		if err != nil {
			return err
		}
		defer other.Close()
		response, err := other.Authorize(context.Background(), ask("ann", "write"))
		if err != nil || len(response.Determining) != 0 {
			return fmt.Errorf("%v: %v", err, response)
		}
		var refusal *Refusal
		if err := engine.PublishChanges([]byte("[]")); !errors.As(err, &refusal) {
			return fmt.Errorf("it is not refused: %v", err)
		}
		return nil
	})
}

func TestAnswersWithChanges(t *testing.T) {
	engine := staffEngine(t)
	line := []byte(`{"principal":"User::\"ann\"","action":"Action::\"view\"","resource":"Group::\"staff\""}`)
	allowed, denied := `{"decision":"allow","determining":["staff"],"erring":[]}`, `{"decision":"deny","determining":[],"erring":[]}`
	for _, it := range []struct {
		line, changes []byte
		wanted        string
	}{
		{line, upsert(ann()), allowed},
		{line, []byte("{}"), denied},
		{line, upsert(ann(), ann()), `{"refused":401}`},
		{line, []byte(`{"upsert":1}`), `{"refused":502}`},
		{line, nil, `{"refused":501}`},
		{[]byte("{}"), upsert(ann()), `{"refused":502}`},
	} {
		for range make([]struct{}, 3) {
			if text, err := engine.AppendAnswerLineWith([]byte("ab"), it.line, it.changes); err != nil || string(text) != "ab"+it.wanted {
				t.Error(string(it.changes), string(text), err)
			}
			if text, err := engine.AnswerLine(line); err != nil || string(text) != denied {
				t.Error(string(it.changes), string(text), err)
			}
		}
	}
	_ = engine.Close()
	if text, err := engine.AppendAnswerLineWith(nil, line, upsert(ann())); !errors.Is(err, ErrClosed) || len(text) != 0 {
		t.Error(string(text), err)
	}
}

// bringing makes the request line of ann, who wants to view, with entities that it brings.
func bringing(entities string) string {
	return `{"principal":"User::\"ann\"","action":"Action::\"view\"","resource":"Group::\"staff\"","entities":` + entities + `}`
}

// No line sees the entities of another, nor does a later call.
func TestAnswersWithEntities(t *testing.T) {
	engine := staffEngine(t)
	allowed, denied := `{"decision":"allow","determining":["staff"],"erring":[]}`, `{"decision":"deny","determining":[],"erring":[]}`
	var lines, answers string
	for _, it := range []struct{ line, wanted string }{
		{bringing(`[]`), denied},
		{bringing(`[` + ann() + `]`), allowed},
		{strings.Replace(bringing(``), `,"entities":`, ``, 1), denied},
		{bringing(`[` + ann() + `,` + ann() + `]`), `{"refused":401}`},
		{bringing(`{}`), `{"refused":502}`},
		{bringing(`[` + ann() + `,` + entryText("Ghost", "g", "{}") + `]`), `{"refused":503}`},
		{bringing(`[` + entryText("User", "ann", "{}", "team") + `]`), `{"refused":505}`},
		{bringing(`[` + entryText("Group", "team", "{}") + `,` + ann() + `]`), denied},
		{bringing(`[` + ann() + `]`), allowed},
	} {
		lines, answers = lines+it.line+"\n", answers+it.wanted+"\n"
	}
	for _, room := range []int{0, 1, 1 << 16} {
		text, err := engine.AppendAnswerWithEntities(append(make([]byte, 0, room+3), "abc"...), []byte(lines))
		if err != nil || string(text) != "abc"+answers {
			t.Error(err, room, string(text))
		}
		if text, err := engine.AnswerWithEntities([]byte(lines)); err != nil || string(text) != answers {
			t.Error(err, string(text))
		}
		if !isWho(t, engine, false, true) {
			t.Error("what a line brings is seen by a later call")
		}
	}
	if text, err := engine.AnswerLine([]byte(bringing(`[]`))); err != nil || string(text) != `{"refused":502}` {
		t.Error(err, string(text))
	}
}

func TestExamplesWithEntities(t *testing.T) {
	found, err := filepath.Glob(filepath.Join(folder, "*", "requests_with_entities.jsonl"))
	if err != nil || len(found) == 0 {
		t.Fatal("no examples: ", err)
	}
	for _, path := range found {
		name := filepath.Base(filepath.Dir(path))
		files, lines, wanted := exampleOf(name).files, content(name, "requests_with_entities.jsonl"), content(name, "answers_with_entities.jsonl")
		files.Entities = []byte("[]")
		engine := engineOf(t, files)
		if text, err := engine.AnswerWithEntities(lines); err != nil || string(text) != string(wanted) {
			t.Error(err, string(text))
		}
		if text, err := engine.AppendAnswerWithEntities(nil, lines); err != nil || string(text) != string(wanted) {
			t.Error(err, string(text))
		}
	}
}
