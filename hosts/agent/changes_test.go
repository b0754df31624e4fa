package main

import (
	"encoding/json"
	"fmt"
	"strings"
	"sync"
	"testing"
)

// A request of examples/photos, and its answers: where ann is a friend of jane, where she is not, and where the beach is not stored.
const (
	beach       = `{"principal":"User::\"ann\"","action":"Action::\"view\"","resource":"Photo::\"beach\""}`
	friend      = `{"decision":"allow","determining":["shared-with-friends"],"erring":[]}` + "\n"
	stranger    = `{"decision":"deny","determining":[],"erring":[]}` + "\n"
	notStored   = `{"decision":"deny","determining":[],"erring":[{"error":"missing_entity","policy":"private"}]}` + "\n"
	annAlone    = `{"uid":{"type":"User","id":"ann"}}`
	annAsFriend = `{"uid":{"__entity":{"type":"User","id":"ann"}},"parents":[{"type":"UserGroup","id":"jane_friends"}]}`
	beachUID    = `{"type":"Photo","id":"beach"}`
)

// patch changes entities.
func (s *served) patch(changes string) reply {
	s.t.Helper()
	return s.call("PATCH", "/v1/entities", "", changes, s.admin)
}

// isAnswered checks the answer to the request for the beach.
func (s *served) isAnswered(wanted string) {
	s.t.Helper()
	if got := s.ask(beach); got.status != 200 || got.body != wanted {
		s.t.Error(got, wanted)
	}
}

func TestPatching(t *testing.T) {
	it := serveExample(t, "photos")
	it.isAnswered(friend)
	first := decoded[currentVersion](t, it.get("/v1/version").body)
	got := it.patch(`{"upsert":[` + annAlone + `]}`)
	second := decoded[currentVersion](t, got.body)
	if got.status != 200 || got.header.Get("Cedar-Version") != "2" || second.Version != 2 || second.Source != "patch" {
		t.Error(got)
	}
	for file, digest := range first.Digests {
		if (second.Digests[file] == digest) == (file == "entities") {
			t.Error(file, first, second)
		}
	}
	if second.Digest == first.Digest {
		t.Error(first, second)
	}
	it.isAnswered(stranger)
	for _, changes := range []string{`{"remove":[` + beachUID + `]}`, `{}`} {
		if got := it.patch(changes); got.status != 200 {
			t.Error(changes, got)
		}
		it.isAnswered(notStored)
	}
	if got := it.put("/v1/entities", content(t, "photos", "entities.json")); got.status != 200 {
		t.Error(got)
	}
	it.isAnswered(friend)
	if got := decoded[currentVersion](t, it.get("/v1/version").body); got.Digest != first.Digest || got.Version != 5 {
		t.Error(got, first)
	}
	if got := it.askLines(content(t, "photos", "requests.jsonl")); got.body != content(t, "photos", "answers.jsonl") {
		t.Error(got)
	}
}

// What changes have made of the entities stays where another file is published, until entities are.
func TestOtherFilesKeepChanges(t *testing.T) {
	it := serveExample(t, "photos")
	both := `{"upsert":[` + annAlone + `,{"uid":{"type":"User","id":"\u0061dele"}}],"remove":[{"type":"User","id":"ben"}]}`
	for _, changes := range []string{`{"upsert":[` + annAsFriend + `]}`, both, `{"remove":[{"type":"User","id":"adele"}]}`} {
		if got := it.patch(changes); got.status != 200 {
			t.Error(got)
		}
	}
	it.isAnswered(stranger)
	if got := it.put("/v1/policies", content(t, "photos", "policies.cedar")); got.status != 200 {
		t.Error(got)
	}
	it.isAnswered(stranger)
	var entries []struct{ UID struct{ Type, ID string } }
	if err := json.Unmarshal(it.store.current.Load().files.Entities, &entries); err != nil || len(entries) != 9 {
		t.Error(err, entries)
	}
	for _, entry := range entries {
		if entry.UID.Type == "User" && (entry.UID.ID == "ben" || entry.UID.ID == "adele") {
			t.Error(entry)
		}
	}
	if got := it.reload("?force=true"); got.status != 200 || it.ask(beach).body != friend {
		t.Error(got)
	}
	if got := it.patch(`{"upsert":[` + annAlone + `]}`); got.status != 200 {
		t.Error(got)
	}
	if got := it.put("/v1/entities", "[]"); got.status != 200 {
		t.Error(got)
	}
	if got := it.put("/v1/policies", content(t, "photos", "policies.cedar")); got.status != 200 {
		t.Error(got)
	}
	it.isAnswered(notStored)
}

func TestRefusedChangesChangeNothing(t *testing.T) {
	it := serveExample(t, "photos")
	deep := strings.Repeat("[", 100_000)
	count := 0
	for number, all := range map[uint32][]string{
		401: {`{"upsert":[` + annAlone + `,` + annAlone + `]}`, `{"remove":[` + beachUID + `,` + beachUID + `]}`},
		501: {"", "{", `{"upsert":` + deep, `{"upsert":[` + annAlone + `]} {}`},
		502: {"[]", `{"upserts":[]}`, `{"upsert":{}}`, `{"remove":["User::\"ann\""]}`, `{"upsert":[{}]}`},
		503: {`{"upsert":[{"uid":{"type":"Ghost","id":"g"}}]}`},
		505: {`{"upsert":[{"uid":` + beachUID + `}]}`},
		506: {`{"upsert":[{"uid":{"type":"User","id":"ann"},"attrs":{"age":1}}]}`},
		508: {`{"remove":[{"type":"Action","id":"view"}]}`},
	} {
		for _, changes := range all {
			got := it.patch(changes)
			why := decoded[failure](t, got.body)
			if got.status != 422 || why.File != "entities" || why.Refused != number || !strings.HasPrefix(why.Words, fmt.Sprintf("error[%d]: ", number)) {
				t.Error(number, got)
			}
			plain := it.request("PATCH", "http://"+it.admin+"/v1/entities", "", strings.NewReader(changes))
			plain.Header.Set("Accept", "text/plain")
			if got := it.send(plain); got.status != 422 || got.body != why.Words {
				t.Error(number, got)
			}
			it.isAnswered(friend)
			count += 2
		}
	}
	if got := it.metric("version"); got != "1" || it.metric(`publications_total{result="refused"}`) != fmt.Sprint(count) {
		t.Error(got, count)
	}
	page := it.request("PATCH", "http://"+it.admin+"/v1/entities", "", strings.NewReader("{}"))
	page.Header.Set("Origin", "http://"+it.admin)
	if got := it.send(page); got.status != 403 {
		t.Error(got)
	}
}

func TestChangesOfManySizes(t *testing.T) {
	it := serveExample(t, "photos", "--max-files", "1000000")
	var users []string
	for at := 0; at < 20_000; at++ {
		users = append(users, fmt.Sprintf(`{"uid":{"type":"User","id":"u%d"}}`, at))
	}
	for changes, status := range map[string]int{
		`{"upsert":[` + strings.Join(users, ",") + `]}`:         200,
		`{"remove":["` + strings.Repeat("a", 1_000_000) + `"]}`: 413,
		strings.Repeat(" ", 999_998) + `{}`:                     200,
		strings.Repeat(`{"upsert":`, 90_000):                    422,
	} {
		if got := it.patch(changes); got.status != status {
			t.Error(changes[:20], got.status)
		}
		it.isAnswered(friend)
	}
	// Whether they are kept as changes or were written anew.
	text := it.call("GET", "/v1/entities", "", "", it.admin).body
	if got := strings.Count(text, `{"uid":{"type":"User","id":"u`); got != len(users) {
		t.Error(got)
	}
}

// Hundreds of changes while requests run: each answer is that of a version that was current.
func TestPatchingWhileRequestsRun(t *testing.T) {
	it := serveExample(t, "photos")
	var asking sync.WaitGroup
	isOver := make(chan struct{})
	for at := 0; at < 4; at++ {
		asking.Add(1)
		go func() {
			defer asking.Done()
			for {
				select {
				case <-isOver:
					return
				default:
				}
				if got := it.ask(beach); got.status != 200 || got.body != friend && got.body != stranger {
					t.Error(got)
				}
			}
		}()
	}
	for at := 0; at < 300; at++ {
		entry, wanted := annAlone, stranger
		if at%2 == 1 {
			entry, wanted = annAsFriend, friend
		}
		if got := it.patch(`{"upsert":[` + entry + `]}`); got.status != 200 || got.header.Get("Cedar-Version") != fmt.Sprint(at+2) {
			t.Error(got)
		}
		it.isAnswered(wanted)
	}
	close(isOver)
	asking.Wait()
	if len(it.store.changed) != 1 {
		t.Error(it.store.changed)
	}
}

// A PATCH is counted, and logged only where that is wanted.
func TestAPatchIsNotALineOfTheLog(t *testing.T) {
	for _, words := range [][]string{nil, {"--log-debug"}} {
		it := serveExample(t, "photos", words...)
		for at := 0; at < 3; at++ {
			if got := it.patch(fmt.Sprintf(`{"upsert":[{"uid":{"type":"User","id":"u%d"}}]}`, at)); got.status != 200 {
				t.Error(got)
			}
		}
		if got := it.metric("patches_total"); got != "3" {
			t.Error(got)
		}
		wanted := 3 * len(words)
		if got := strings.Count(it.log.String(), `"level":"debug","event":"published"`); got != wanted {
			t.Error(words, got)
		}
		if got := strings.Count(it.log.String(), `"event":"published"`); got != wanted+1 {
			t.Error(words, got)
		}
	}
}

// Where much is kept of changes, the entities are written anew. Answers, the number and the digests stay, and so do the changes.
func TestChangesAreCompacted(t *testing.T) {
	it := serveExample(t, "photos")
	if got := it.patch(`{"remove":[{"type":"User","id":"ann"}],"upsert":[{"uid":{"type":"User","id":"first"}}]}`); got.status != 200 {
		t.Fatal(got)
	}
	var uids, entries []string
	for at := 0; at < 3000; at++ {
		uids = append(uids, fmt.Sprintf(`{"type":"User","id":"session%d"}`, at))
		entries = append(entries, fmt.Sprintf(`{"uid":%s}`, uids[at]))
	}
	come, go_ := `{"upsert":[`+strings.Join(entries, ",")+`]}`, `{"remove":[`+strings.Join(uids, ",")+`]}`
	other := serveExample(t, "photos")
	other.store.lock.Lock()
	other.store.kept = -1 << 40
	other.store.lock.Unlock()
	other.patch(`{"remove":[{"type":"User","id":"ann"}],"upsert":[{"uid":{"type":"User","id":"first"}}]}`)
	for round := 0; round < 3; round++ {
		for _, body := range []string{come, go_} {
			before := it.metric("compactions_total")
			got := it.patch(body)
			described := decoded[currentVersion](t, got.body)
			eventually(t, "the changes are compacted", func() bool { return it.metric("compactions_total") != before })
			now := decoded[currentVersion](t, it.get("/v1/version").body)
			if now.Digest != described.Digest || now.Version != described.Version || now.Published != described.Published {
				t.Error(described, now)
			}
			// One that has the same changes, also the one that is not compacted, has the same digest.
			if got := decoded[currentVersion](t, other.patch(body).body); got.Digest != now.Digest {
				t.Error(got, now)
			}
			it.store.lock.Lock()
			if len(it.store.changed) != 0 || it.store.kept != 0 {
				t.Error(len(it.store.changed), it.store.kept)
			}
			it.store.lock.Unlock()
			it.isAnswered(stranger)
		}
	}
	text := it.call("GET", "/v1/entities", "", "", it.admin)
	if strings.Contains(text.body, "session") || !strings.Contains(text.body, `"first"`) || strings.Contains(text.body, `"id": "ann" }, "parents"`) {
		t.Error(text.body)
	}
	if got := other.metric("compactions_total"); got != "0" {
		t.Error(got)
	}
	// What was read is published as it is.
	if got := it.call("PUT", "/v1/entities", "", text.body, it.admin); got.status != 200 {
		t.Error(got)
	}
	it.isAnswered(stranger)
	if strings.Count(it.log.String(), `"event":"compacted"`) != 6 {
		t.Error(it.log.String())
	}
}

// Requests are answered, and the old engines freed, while changes are compacted.
func TestRequestsWhileChangesAreCompacted(t *testing.T) {
	it := serveExample(t, "photos")
	isOver := make(chan struct{})
	var asking sync.WaitGroup
	for at := 0; at < 4; at++ {
		asking.Add(1)
		go func() {
			defer asking.Done()
			for {
				select {
				case <-isOver:
					return
				default:
					it.isAnswered(friend)
				}
			}
		}()
	}
	for round := 0; round < 30; round++ {
		it.store.lock.Lock()
		it.store.kept = mostKept * 2
		it.store.lock.Unlock()
		if got := it.patch(fmt.Sprintf(`{"upsert":[{"uid":{"type":"User","id":"u%d"}}]}`, round)); got.status != 200 {
			t.Error(got)
		}
	}
	eventually(t, "the changes are compacted", func() bool { return it.agent.metrics.compacted.Load() > 3 })
	close(isOver)
	asking.Wait()
}
