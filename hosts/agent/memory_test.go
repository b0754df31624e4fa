//go:build !race

package main

// Tests of the memory of the process, which has none of that of its clients. The process is built without the race detector, so that a run
// with it would only repeat them.

import (
	"fmt"
	"io"
	"net/http"
	"os"
	"path/filepath"
	"regexp"
	"strconv"
	"strings"
	"sync"
	"sync/atomic"
	"syscall"
	"testing"
	"time"
)

// memory gives a size of the process in bytes, of /proc/PID/status: VmRSS is what is resident, and VmHWM the most that was.
func (p *process) memory(t *testing.T, name string) int64 {
	t.Helper()
	text, err := os.ReadFile(fmt.Sprintf("/proc/%d/status", p.command.Process.Pid))
	found := regexp.MustCompile(name + `:\s+(\d+) kB`).FindSubmatch(text)
	if err != nil || found == nil {
		t.Skip("the system does not say it: ", err)
	}
	size, _ := strconv.ParseInt(string(found[1]), 10, 64)
	return size << 10
}

// send makes a call, and gives its status and the bytes of the answer, which are not kept.
func (p *process) send(t *testing.T, method, path, mediaType, accept string, body io.Reader) (int, int64) {
	t.Helper()
	request, err := http.NewRequest(method, "http://agent"+path, body)
	if err != nil {
		t.Fatal(err)
	}
	request.Header.Set("Content-Type", mediaType)
	request.Header.Set("Accept", accept)
	answer, err := p.client.Do(request)
	if err != nil {
		t.Fatal(err, p.log.String())
	}
	defer answer.Body.Close()
	count, err := io.Copy(io.Discard, answer.Body)
	if err != nil {
		t.Error(err)
	}
	return answer.StatusCode, count
}

// startedOverMany starts an agent over 10,000 users in 500 groups, and gives it with a client of its socket for publishing.
func startedOverMany(t *testing.T, words ...string) (*process, *process) {
	t.Helper()
	folder := t.TempDir()
	var entities strings.Builder
	for at := 0; at < 500; at++ {
		fmt.Fprintf(&entities, `,{"uid":{"type":"Group","id":"group%d"}}`, at)
	}
	for at := 0; at < 10000; at++ {
		fmt.Fprintf(&entities, `,%s`, memberOf(fmt.Sprintf("user%d", at), fmt.Sprintf("group%d", at%500)))
	}
	for name, text := range map[string]string{"entities": "[" + entities.String()[1:] + "]",
		"policies": `permit(principal in Group::"group7", action, resource);`,
		"schema": `{"":{"entityTypes":{"Group":{"memberOfTypes":["Group"]},"User":{"memberOfTypes":["Group"],"shape":{"type":"Record","attributes":
			{"name":{"type":"String"}}}}},"actions":{"view":{"appliesTo":{"principalTypes":["User"],"resourceTypes":["Group"]}}}}}`} {
		write(t, filepath.Join(folder, name), text)
		words = append(words, "--"+name, filepath.Join(folder, name))
	}
	admin := filepath.Join(folder, "admin")
	// On a busy machine the largest requests take their time.
	it := started(t, filepath.Join(folder, "socket"), append(words, "--admin", "unix:"+admin, "--max-time", "10m")...)
	it.client.Timeout = 10 * time.Minute
	return it, it.at(admin)
}

// memberOf gives a user with a name of 100 bytes, in a group.
func memberOf(name, group string) string {
	return fmt.Sprintf(`{"uid":{"type":"User","id":"%s"},"attrs":{"name":"%s"},"parents":[{"type":"Group","id":"%s"}]}`, name,
		strings.Repeat("x", 100), group)
}

// at gives the process with a client of another socket.
func (p *process) at(socket string) *process {
	other := *p
	other.client = clientOf(socket)
	other.client.Timeout = p.client.Timeout
	return &other
}

// asking has clients ask until the function that it gives is called.
func (p *process) asking(t *testing.T, clients int) func() {
	var isOver atomic.Bool
	var all sync.WaitGroup
	const request = `{"principal":"User::\"user7\"","action":"Action::\"view\"","resource":"Group::\"group1\""}`
	for at := 0; at < clients; at++ {
		all.Add(1)
		go func() {
			defer all.Done()
			for !isOver.Load() {
				if got := p.ask(t, request); got != allowedAnswer {
					t.Error(got)
					return
				}
			}
		}()
	}
	return func() {
		isOver.Store(true)
		all.Wait()
	}
}

// settles waits until the process has at most so much memory, ten seconds at most, and gives what it has then. Entities are written anew,
// and freed memory given back, beside the calls that publish.
func (p *process) settles(t *testing.T, most int64) int64 {
	for deadline := time.Now().Add(10 * time.Second); ; time.Sleep(100 * time.Millisecond) {
		if now := p.memory(t, "VmRSS"); now <= most || time.Now().After(deadline) {
			return now
		}
	}
}

// Sessions that come and go by PATCH leave no memory behind.
func TestMemoryOfSessions(t *testing.T) {
	it, admin := startedOverMany(t)
	const each, rounds, settled, allowed = 500, 120, 30, 24 << 20
	var most int64
	for round := 0; round < rounds; round++ {
		var come, gone []string
		for at := 0; at < each; at++ {
			come = append(come, memberOf(fmt.Sprintf("session%d", round*each+at), "group7"))
			if round > 0 {
				gone = append(gone, fmt.Sprintf(`{"type":"User","id":"session%d"}`, (round-1)*each+at))
			}
		}
		body := `{"upsert":[` + strings.Join(come, ",") + `],"remove":[` + strings.Join(gone, ",") + `]}`
		if status, _ := admin.send(t, "PATCH", "/v1/entities", "", "", strings.NewReader(body)); status != 200 {
			t.Fatal(status)
		}
		now := it.memory(t, "VmRSS")
		if round%10 == 9 {
			t.Logf("%d sessions: %d MB", (round+1)*each, now>>20)
		}
		if round < settled && now > most {
			most = now
		}
		if round >= settled && now > most+allowed {
			if now = it.settles(t, most+allowed); now > most+allowed {
				t.Fatalf("%d MB after %d sessions, and %d MB at most before %d", now>>20, (round+1)*each, most>>20, settled*each)
			}
		}
	}
}

// Many changes under load leave no memory behind.
func TestMemoryOfPatchesUnderLoad(t *testing.T) {
	it, admin := startedOverMany(t)
	const patches, settled, allowed = 500, 200, 16 << 20
	defer it.asking(t, 16)()
	var most int64
	for round := 0; round < patches; round++ {
		team := fmt.Sprintf("team%d", round)
		body := fmt.Sprintf(`{"upsert":[{"uid":{"type":"Group","id":"%s"}},%s]}`, team, memberOf(fmt.Sprintf("user%d", 100+round), team))
		if status, _ := admin.send(t, "PATCH", "/v1/entities", "", "", strings.NewReader(body)); status != 200 {
			t.Fatal(status)
		}
		now := it.memory(t, "VmRSS")
		if round < settled && now > most {
			most = now
		}
		if round >= settled && now > most+allowed {
			if now = it.settles(t, most+allowed); now > most+allowed {
				t.Fatalf("%d MB after %d patches, and %d MB at most before", now>>20, round+1, most>>20)
			}
		}
	}
	t.Logf("%d MB after %d patches, and %d MB at most before", it.memory(t, "VmRSS")>>20, patches, most>>20)
}

// A large is a request that is as large as the limits allow, and large in one way.
type large struct {
	name, path, mediaType, accept, body string
	wanted                              int
}

// repeated gives texts that a function makes of numbers, with commas between, as many as a size has room for.
func repeated(size int, make func(at int) string) string {
	var text strings.Builder
	for at := 0; ; at++ {
		next := make(at)
		if text.Len()+len(next) >= size {
			return text.String()[1:]
		}
		text.WriteString("," + next)
	}
}

// largestRequests are of the listener for requests.
func largestRequests() []large {
	const one, lines, request = "application/json", "application/x-ndjson",
		`{"principal":"User::\"user7\"","action":"Action::\"view\"","resource":"Group::\"group1\""`
	bringing := func(entity func(at int) string) string {
		return request + `,"entities":[` + repeated(lineWithEntities-len(request)-20, entity) + `]}`
	}
	chain := bringing(func(at int) string {
		return fmt.Sprintf(`{"uid":{"type":"Group","id":"%x"},"parents":[{"type":"Group","id":"%x"}]}`, at, at+1)
	})
	flat := bringing(func(at int) string { return fmt.Sprintf(`{"uid":{"type":"Group","id":"%x"}}`, at) })
	deep := request + `,"context":` + strings.Repeat("[", lineWithEntities-1000)
	const path = "/v1/authorize"
	return []large{
		{"lines", path, lines, "", strings.Repeat(request+"}\n", (64<<20)/(len(request)+2)), 200},
		{"empty lines in one call", path, lines, "", strings.Repeat("\n", wholeBody), 200},
		{"empty lines", path, lines, "", strings.Repeat("\n", 8<<20), 200},
		{"lines that do not end", path, lines, "", strings.Repeat(deep+"\n", 200), 200},
		{"one that does not end", path, one, "", deep, 400},
		{"a chain of groups", path, one, "", chain, 200},
		{"lines with chains of groups", path, lines, "", strings.Repeat(chain+"\n", 8), 200},
		{"many groups", path, one, "", flat, 200},
	}
}

// largestValidations are of the listener for calls that publish.
func largestValidations() []large {
	const files, words, path = "application/json", "text/plain", "/v1/validate"
	const schema = 256<<10 - 1000
	many := strings.Repeat("permit(principal,action,resource);", (1<<20)/34)
	chained := func(first, format string) string {
		return first + repeated(schema, func(at int) string { return fmt.Sprintf(format, at, at+1) }) + "}"
	}
	types := repeated(4700, func(at int) string { return fmt.Sprintf(`"T%x":{}`, at) })
	names := repeated(3190, func(at int) string { return fmt.Sprintf(`"T%x"`, at) })
	return []large{
		{"brackets", path, "", words, strings.Repeat("[", 1<<20), 422},
		{"quotes", path, "", words, strings.Repeat(`"`, 1<<20), 422},
		{"policies", path, "", "", many, 200},
		{"policies in words", path, "", words, many, 200},
		{"a report", path, files, "", wideFiles(310), 422},
		{"a report in words", path, files, words, wideFiles(310), 422},
		{"types", path, files, "", ofSchema(`"actions":{},` + chained(`"entityTypes":{"T0":{},`, `"T%[2]x":{"memberOfTypes":["T%[1]x"]}`)), 200},
		{"actions", path, files, "", ofSchema(`"entityTypes":{},` + chained(`"actions":{"0":{},`, `"%[2]x":{"memberOf":[{"id":"%[1]x"}]}`)), 200},
		{"common types", path, files, "", ofSchema(`"entityTypes":{},"actions":{},` + chained(`"commonTypes":{"C0":{"type":"Long"},`, `"C%[2]x":{"type":"C%[1]x"}`)), 200},
		{"environments", path, files, "", ofSchema(`"entityTypes":{` + types + `},"actions":{"a":{"appliesTo":{"principalTypes":[` + names +
			`],"resourceTypes":[` + names + `]}}}`), 200},
	}
}

// No request within the limits takes more than 64 MB. The client is another process.
func TestMemoryOfSingleRequests(t *testing.T) {
	const allowed = 64 << 20
	for _, one := range append(largestRequests(), largestValidations()...) {
		it, admin := startedOverMany(t, "--entities-in-requests")
		idle := it.memory(t, "VmRSS")
		to := it
		if one.path == "/v1/validate" {
			to = admin
		}
		status, count := to.send(t, "POST", one.path, one.mediaType, one.accept, strings.NewReader(one.body))
		grown := it.memory(t, "VmHWM") - idle
		t.Logf("%s: %d bytes sent, %d received, %d MB above idle", one.name, len(one.body), count, grown>>20)
		if status != one.wanted || grown > allowed {
			t.Error(one.name, status, grown>>20, "MB")
		}
		if got := it.end(t, syscall.SIGTERM); got != statusDone {
			t.Error(one.name, got)
		}
	}
}

// A schema of the client, and a request with entities, could take the square of their size: each has a limit of its own.
func TestLimitsOfWhatGrowsFaster(t *testing.T) {
	it := serveExample(t, "photos", "--entities-in-requests")
	types := repeated(300<<10, func(at int) string { return fmt.Sprintf(`"T%x":{}`, at) })
	got := it.call("POST", "/v1/validate", "application/json", ofSchema(`"entityTypes":{`+types+`},"actions":{}`), it.admin)
	if got.status != 413 || !strings.Contains(got.body, "--max-schema") {
		t.Error(got)
	}
	long := requestBringing(`[` + strings.Repeat(" ", lineWithEntities) + `]`)
	if got := it.ask(long); got.status != 413 {
		t.Error(got)
	}
	for _, words := range [][]string{{"--entities-in-requests", "--max-line", "300000"}, nil} {
		if got := serveExample(t, "photos", words...).ask(strings.Repeat(" ", lineWithEntities) + beach); got.status != 200 || got.body != friend {
			t.Error(words, got)
		}
	}
}
