package main

import (
	"fmt"
	"os"
	"path/filepath"
	"runtime/debug"
	"strconv"
	"strings"
	"sync"
	"sync/atomic"
	"testing"
	"time"

	"bobbinjade"
)

// numbered gives policies whose id is a number. Even numbers permit, and odd ones forbid.
func numbered(number int64) string {
	return fmt.Sprintf("@id(\"%d\") %s(principal, action, resource);", number, []string{"permit", "forbid"}[number%2])
}

// numberOf gives the number of the policies that answered; it is false where the answer is of no such policies.
func numberOf(answer string) (int64, bool) {
	for at, decision := range []string{"allow", "deny"} {
		rest := strings.TrimPrefix(answer, `{"decision":"`+decision+`","determining":["`)
		digits, _, isWhole := strings.Cut(rest, `"],"erring":[]}`)
		number, err := strconv.ParseInt(digits, 10, 64)
		if rest != answer && isWhole && err == nil {
			return number, number%2 == int64(at)
		}
	}
	return 0, false
}

// Each of 100,000 requests is answered according to the version that was current when it began, or one that was published meanwhile.
func TestReloadsWhileRequestsRun(t *testing.T) {
	it := serveExample(t, "notes", "--reload-replaces")
	const clients, each = 16, 6250
	policies := filepath.Join(it.folder, "policies.cedar")
	write(t, policies, numbered(0))
	it.hangups <- struct{}{}
	eventually(t, "the first policies are published", func() bool {
		number, isOne := numberOf(it.ask(line("ann", "write")).body)
		return isOne && number == 0
	})
	var begun, done, answered atomic.Int64
	var versions sync.Map
	var asking sync.WaitGroup
	for client := 0; client < clients; client++ {
		asking.Add(1)
		go func() {
			defer asking.Done()
			for at := 0; at < each && askNumbered(it, &begun, &done, &versions); at++ {
				answered.Add(1)
			}
		}()
	}
	isOver := make(chan struct{})
	go func() {
		asking.Wait()
		close(isOver)
	}()
	publishNumbered(it, policies, &begun, &done, isOver)
	if answered.Load() != clients*each || done.Load() < 5 {
		t.Error(answered.Load(), "answers,", done.Load(), "versions")
	}
	t.Log(answered.Load(), "answers,", done.Load(), "versions")
}

// askNumbered makes a request, whose answer is that of policies that were current meanwhile. It is false where the answer is another one.
func askNumbered(it *served, begun, done *atomic.Int64, versions *sync.Map) bool {
	first := done.Load()
	got := it.ask(line("ann", "write"))
	last := begun.Load()
	number, isOne := numberOf(got.body)
	if got.status != 200 || !isOne || number < first || number > last {
		it.t.Error(got, first, last)
		return false
	}
	if other, isKnown := versions.LoadOrStore(got.header.Get("Cedar-Version"), number); isKnown && other != number {
		it.t.Error("a version with two policies", other, number)
		return false
	}
	return true
}

// publishNumbered publishes policies until it is over: by a changed file, by SIGHUP and by a call, in turn.
func publishNumbered(it *served, path string, begun, done *atomic.Int64, isOver <-chan struct{}) {
	for {
		select {
		case <-isOver:
			return
		default:
		}
		number := begun.Add(1)
		if number%3 == 0 {
			if got := it.put("/v1/policies", numbered(number)); got.status != 200 {
				it.t.Error(got)
			}
		} else {
			write(it.t, path, numbered(number))
			if number%3 == 1 {
				it.hangups <- struct{}{}
			}
			wanted := digestOf([]byte(numbered(number)))
			eventually(it.t, "the policies are published", func() bool {
				return it.store.current.Load().digests[bobbinjade.Policies] == wanted
			})
		}
		done.Store(number)
	}
}

func TestAFileThatTurnsBadAndGoodAgain(t *testing.T) {
	it := serveExample(t, "notes")
	path := filepath.Join(it.folder, "policies.cedar")
	write(t, path, content(t, "notes", "broken_policies.cedar"))
	eventually(t, "/readyz says why", func() bool { return it.reloader.failure.Load() != nil })
	got := it.get("/readyz")
	ready := decoded[readiness](t, got.body)
	if got.status != 200 || !ready.Ready || ready.Version != 1 || ready.Reload.Refused != 201 || ready.Reload.File != "policies" ||
		!strings.HasPrefix(ready.Reload.Words, "error[201]: the policy text has a syntax error") {
		t.Error(got)
	}
	logged := `"event":"reload_refused","error":"a file is refused","file":"policies","refused":201,"words":"error[201]`
	if !strings.Contains(it.log.String(), logged) {
		t.Error(it.log.String())
	}
	if got := it.askLines(content(t, "notes", "requests.jsonl")); got.body != content(t, "notes", "answers.jsonl") {
		t.Error(got)
	}
	write(t, path, permitAll)
	eventually(t, "the good file is published", func() bool { return it.store.current.Load().number == 2 })
	eventually(t, "/readyz forgets", func() bool { return !strings.Contains(it.get("/readyz").body, "reload") })
	if got := it.ask(line("carol", "read")); got.body != permittedAnswer {
		t.Error(got)
	}
	// Bad, and then as it was: nothing new is published.
	write(t, path, "permit(")
	eventually(t, "/readyz says why", func() bool { return it.reloader.failure.Load() != nil })
	write(t, path, permitAll)
	eventually(t, "/readyz forgets", func() bool { return it.reloader.failure.Load() == nil })
	if got := it.metric("version"); got != "2" || strings.Count(it.log.String(), "reload_refused") != 2 {
		t.Error(got, it.log.String())
	}
}

func TestAFileThatGoesAndComesBack(t *testing.T) {
	it := serveExample(t, "notes")
	path := filepath.Join(it.folder, "entities.json")
	if err := os.Remove(path); err != nil {
		t.Fatal(err)
	}
	eventually(t, "/readyz says why", func() bool { return strings.Contains(it.get("/readyz").body, "--entities") })
	time.Sleep(200 * time.Millisecond)
	if count := strings.Count(it.log.String(), "reload_refused"); count != 1 {
		t.Error(count, "lines say so")
	}
	it.others(3)
	write(t, path, content(t, "notes", "entities.json"))
	eventually(t, "/readyz forgets", func() bool { return it.reloader.failure.Load() == nil })
	if got := it.metric("version"); got != "1" {
		t.Error(got)
	}
}

// Policies that faults are found in are refused as such, with the report.
func TestFaultsOfAReload(t *testing.T) {
	it := serveExample(t, "notes")
	write(t, filepath.Join(it.folder, "policies.cedar"), "permit(principal, action, resource) when { principal.age > 1 };")
	eventually(t, "/readyz says why", func() bool { return it.reloader.failure.Load() != nil })
	why := it.reloader.failure.Load()
	isFault := why.Error == "the policies have faults" && strings.HasPrefix(why.Words, "error[603]: ")
	if !isFault || !strings.HasSuffix(why.Report, "\"warnings\":0}\n") {
		t.Error(why)
	}
}

// A schema and the policies that need it change one after the other: each alone is refused, and both together are published.
func TestFilesThatChangeTogether(t *testing.T) {
	it := serveExample(t, "notes")
	write(t, filepath.Join(it.folder, "policies.cedar"), content(t, "photos", "policies.cedar"))
	eventually(t, "/readyz says why", func() bool { return it.reloader.failure.Load() != nil })
	write(t, filepath.Join(it.folder, "schema.json"), content(t, "photos", "schema.json"))
	write(t, filepath.Join(it.folder, "entities.json"), content(t, "photos", "entities.json"))
	eventually(t, "all are published", func() bool { return it.store.current.Load().number == 2 })
	if got := it.askLines(content(t, "photos", "requests.jsonl")); got.body != content(t, "photos", "answers.jsonl") {
		t.Error(got)
	}
	eventually(t, "/readyz forgets", func() bool { return it.reloader.failure.Load() == nil })
}

// What a call has published stays where another file changes, until the files are forced.
func TestPublishedPoliciesAndFiles(t *testing.T) {
	it := serveExample(t, "notes")
	if got := it.put("/v1/policies", permitAll); got.status != 200 {
		t.Fatal(got)
	}
	write(t, filepath.Join(it.folder, "entities.json"), "[]")
	eventually(t, "the entities are published", func() bool { return it.store.current.Load().number == 3 })
	if got := it.ask(line("carol", "read")); got.body != permittedAnswer {
		t.Error(got)
	}
	if got := it.reload("?force=true"); got.status != 200 || it.store.current.Load().number != 4 {
		t.Error(got)
	}
	if got := it.ask(line("carol", "read")); got.body != deniedAnswer {
		t.Error(got)
	}
	// A file that becomes what a call has published before replaces nothing.
	if got := it.put("/v1/policies", permitAll); got.status != 200 {
		t.Fatal(got)
	}
	write(t, filepath.Join(it.folder, "policies.cedar"), permitAll)
	if got := it.reload(""); got.status != 200 || it.store.current.Load().number != 5 || strings.Contains(got.body, "held") {
		t.Error(got)
	}
}

// A file that is just being written is not read: here it would be published without its forbid.
func TestAFileThatIsJustBeingWritten(t *testing.T) {
	it := serveExample(t, "notes", "--reload", "0")
	file, err := os.OpenFile(filepath.Join(it.folder, "policies.cedar"), os.O_WRONLY|os.O_TRUNC, 0)
	if err != nil {
		t.Fatal(err)
	}
	for at := 0; at < 5; at++ {
		fmt.Fprintf(file, "@id(\"%d\") permit(principal, action, resource);\n", at)
		it.reloader.poll()
	}
	fmt.Fprintln(file, `@id("last") forbid(principal, action, resource);`)
	_ = file.Close()
	it.reloader.poll()
	if got := it.store.current.Load().number; got != 1 {
		t.Error(got)
	}
	it.reloader.poll()
	if got := it.ask(line("ann", "write")); got.body != `{"decision":"deny","determining":["last"],"erring":[]}`+"\n" {
		t.Error(got)
	}
	it.reloader.poll()
	if got := it.store.current.Load().number; got != 2 {
		t.Error(got)
	}
}

// The engines of old versions are freed.
func TestOldVersionsAreFreed(t *testing.T) {
	// The collector of Go does not run of its own accord, as where an engine is large and requests are few.
	defer debug.SetGCPercent(debug.SetGCPercent(-1))
	it := serveExample(t, "notes")
	large := strings.Repeat(permitAll[10:], 3000)
	sizes := []uint64{}
	for at := 0; at < 12; at++ {
		if got := it.put("/v1/policies", large+numbered(int64(at))); got.status != 200 {
			t.Fatal(got.status)
		}
		for range []int{1, 2, 3} {
			it.ask(line("ann", "write"))
		}
		sizes = append(sizes, engineBytes())
	}
	if sizes[0] == 0 {
		t.Skip("the C library does not count")
	}
	if sizes[11] > sizes[1]*2 {
		t.Error(sizes)
	}
}
