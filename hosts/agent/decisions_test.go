package main

import (
	"encoding/json"
	"fmt"
	"math/rand"
	"os"
	"os/exec"
	"os/signal"
	"path/filepath"
	"strings"
	"syscall"
	"testing"
)

// replay has the program answer the requests of a decision log anew, with tools/replay_decisions.
func replay(t *testing.T, log string, words ...string) (string, int) {
	t.Helper()
	python, err := exec.LookPath("python3")
	if err != nil {
		t.Skip("python3 is not installed")
	}
	command := exec.Command(python, append([]string{"../../tools/replay_decisions", "--program", programPath(t), log}, words...)...)
	said, _ := command.CombinedOutput()
	return string(said), command.ProcessState.ExitCode()
}

func TestDecisionsCanBeReplayed(t *testing.T) {
	for _, name := range exampleNames(t) {
		log := filepath.Join(t.TempDir(), "decisions.jsonl")
		it := serveExample(t, name, "--decision-log", log)
		lines := mutated(rand.New(rand.NewSource(11)), content(t, name, "requests.jsonl"), 500)
		count := 0
		first := strings.Split(content(t, name, "requests.jsonl"), "\n")[0]
		for _, got := range []reply{it.askLines(lines), it.askLines(content(t, name, "requests.jsonl")), it.ask("{\n}"),
			it.ask(strings.Replace(first, ",", "\t,\r\n", 1))} {
			count += strings.Count(got.body, "\n")
		}
		eventually(t, "all decisions are logged", func() bool {
			text, _ := os.ReadFile(log)
			return strings.Count(string(text), "\n") == count
		})
		_, files := copied(t, name)
		said, status := replay(t, log, files...)
		if status != 0 || said != fmt.Sprintf("%d same, 0 differ\n", count) || count < 505 {
			t.Error(name, status, said)
		}
	}
}

// Requests that bring entities are answered anew with them.
func TestDecisionsWithEntitiesCanBeReplayed(t *testing.T) {
	log := filepath.Join(t.TempDir(), "decisions.jsonl")
	it := serveExample(t, "photos", "--decision-log", log, "--entities-in-requests")
	requests := []string{beach, requestBringing(`[` + annAlone + `]`), beach, requestBringing(`[]`), requestBringing(`[` + annAlone + `,` + annAlone + `]`),
		requestBringing(`[{"uid":{"type":"Ghost","id":"g"}}]`), requestBringing(`{}`), requestBringing(`[],"more":1`)}
	for _, request := range requests {
		it.ask(request)
	}
	it.askLines(strings.Join(requests, "\n"))
	count := 2 * len(requests)
	eventually(t, "all decisions are logged", func() bool {
		text, _ := os.ReadFile(log)
		return strings.Count(string(text), "\n") == count
	})
	_, files := copied(t, "photos")
	said, status := replay(t, log, append(files, "--entities-in-requests")...)
	if status != 0 || said != fmt.Sprintf("%d same, 0 differ\n", count) {
		t.Error(status, said)
	}
	// Without the option the program refuses the requests that bring entities.
	if said, status := replay(t, log, files...); status != 1 || !strings.HasSuffix(said, "8 same, 8 differ\n") {
		t.Error(status, said)
	}
}

// With other policies the program gives other answers, and the replay says which.
func TestAReplayThatDiffers(t *testing.T) {
	log := filepath.Join(t.TempDir(), "decisions.jsonl")
	it := serveExample(t, "notes", "--decision-log", log)
	it.askLines(content(t, "notes", "requests.jsonl"))
	if got := it.put("/v1/policies", permitAll); got.status != 200 {
		t.Fatal(got)
	}
	it.ask(line("carol", "read"))
	eventually(t, "all decisions are logged", func() bool {
		text, _ := os.ReadFile(log)
		return strings.Count(string(text), "\n") == 9
	})
	_, files := copied(t, "notes")
	said, status := replay(t, log, files...)
	if status != 1 || !strings.HasSuffix(said, "8 same, 1 differ\n") || !strings.Contains(said, "version 2") {
		t.Error(status, said)
	}
	if said, status := replay(t, log, append(files, "--version", "1")...); status != 0 || said != "8 same, 0 differ\n" {
		t.Error(status, said)
	}
}

func TestLinesOfTheDecisionLog(t *testing.T) {
	log := filepath.Join(t.TempDir(), "decisions.jsonl")
	it := serveExample(t, "notes", "--decision-log", log)
	it.ask(line("ann", "write"))
	it.ask("\xff")
	it.decisions.flush()
	text, err := os.ReadFile(log)
	if err != nil {
		t.Fatal(err)
	}
	lines := strings.Split(strings.TrimSuffix(string(text), "\n"), "\n")
	if len(lines) != 2 {
		t.Fatal(string(text))
	}
	wanted := [][2]string{{line("ann", "write"), strings.TrimSuffix(allowedAnswer, "\n")}, {"", `{"refused":501}`}}
	for at, line := range lines {
		var read struct {
			Time, Digest, Request, Answer string
			Version                       uint64
		}
		if err := json.Unmarshal([]byte(line), &read); err != nil {
			t.Fatal(err, line)
		}
		if read.Request != wanted[at][0] || read.Answer != wanted[at][1] || read.Version != 1 || read.Digest != it.store.current.Load().digest {
			t.Error(line)
		}
	}
}

// A log that was renamed is begun anew at SIGHUP.
func TestADecisionLogThatIsRenamed(t *testing.T) {
	log := filepath.Join(t.TempDir(), "decisions.jsonl")
	it := serveExample(t, "notes", "--decision-log", log)
	it.others(2)
	if err := os.Rename(log, log+".1"); err != nil {
		t.Fatal(err)
	}
	it.hangups <- struct{}{}
	eventually(t, "the log is there", func() bool {
		_, err := os.Stat(log)
		return err == nil
	})
	it.others(3)
	it.decisions.flush()
	for path, wanted := range map[string]int{log + ".1": 2, log: 3} {
		if text, err := os.ReadFile(path); err != nil || strings.Count(string(text), "\n") != wanted {
			t.Error(path, err, string(text))
		}
	}
}

// A disk that is full is counted, and requests are answered.
func TestADecisionLogThatCannotBeWritten(t *testing.T) {
	it := serveExample(t, "notes", "--decision-log", "/dev/full")
	it.others(3)
	eventually(t, "the failure is counted", func() bool { return it.decisions.failures() > 0 })
	it.others(3)
	if it.metric("decision_log_failures_total") == "0" {
		t.Error("not in the metrics")
	}
}

// A logged is a line of the decision log.
type logged struct {
	ID, Time, Digest, Request, Answer string
	Version                           uint64
	Omitted                           []string
}

// decisionsOf reads decision logs.
func decisionsOf(t *testing.T, paths ...string) []logged {
	t.Helper()
	var all []logged
	for _, path := range paths {
		text, err := os.ReadFile(path)
		if err != nil {
			t.Fatal(err)
		}
		for _, line := range strings.Split(strings.TrimSuffix(string(text), "\n"), "\n") {
			all = append(all, decoded[logged](t, line))
		}
	}
	return all
}

// Each decision has an id of its own, which the answer has, too.
func TestIDsOfDecisions(t *testing.T) {
	log := filepath.Join(t.TempDir(), "decisions.jsonl")
	it := serveExample(t, "notes", "--decision-log", log)
	var wanted []string
	for _, request := range []string{line("ann", "write"), "{", line("carol", "read")} {
		wanted = append(wanted, it.ask(request).header.Get("Cedar-Decision-Id"))
	}
	for count, send := range map[int]func(string) reply{3: it.askLines, 4: it.askStream, 7000: it.askLines} {
		got := send(strings.Repeat(line("ann", "write")+"\n", count))
		if got.body != strings.Repeat(allowedAnswer, count) {
			t.Error(got.status, len(got.body))
		}
		for at := 1; at <= count; at++ {
			wanted = append(wanted, fmt.Sprintf("%s.%d", got.header.Get("Cedar-Decision-Id"), at))
		}
	}
	it.decisions.flush()
	isThere := map[string]bool{}
	for _, one := range decisionsOf(t, log) {
		if isThere[one.ID] || len(one.ID) < 18 {
			t.Error(one.ID)
		}
		isThere[one.ID] = true
	}
	for _, id := range wanted {
		if !isThere[id] {
			t.Error(id)
		}
	}
	if len(isThere) != len(wanted) {
		t.Error(len(isThere), len(wanted))
	}
	other := serveExample(t, "notes", "--decision-log", log)
	if id := other.ask(line("ann", "write")).header.Get("Cedar-Decision-Id"); id == "" || isThere[id] {
		t.Error(id)
	}
}

// A log that would be too large is renamed, and begun anew. What was renamed before is gone.
func TestTheDecisionLogIsBounded(t *testing.T) {
	const most = 20000
	log := filepath.Join(t.TempDir(), "decisions.jsonl")
	write(t, log, strings.Repeat("x", most-100)+"\n")
	it := serveExample(t, "notes", "--decision-log", log, "--decisions-max", fmt.Sprint(most))
	for round := 0; round < 5; round++ {
		it.askLines(strings.Repeat(line("ann", "write")+"\n", 100))
		it.decisions.flush()
		for _, path := range []string{log, log + ".1"} {
			if found, err := os.Stat(path); err != nil || found.Size() > most {
				t.Error(path, found, err)
			}
		}
	}
	kept := decisionsOf(t, log+".1", log)
	if last := kept[len(kept)-1]; !strings.HasSuffix(last.ID, "5.100") || len(kept) < 20 {
		t.Error(len(kept), last)
	}
	for at := 1; at < len(kept); at++ {
		if kept[at].ID == kept[at-1].ID || kept[at].Request != line("ann", "write") {
			t.Error(kept[at])
		}
	}
	if got := it.decisions.failures(); got != 0 {
		t.Error(got)
	}
	if found, err := filepath.Glob(log + "*"); err != nil || len(found) != 2 {
		t.Error(found, err)
	}
}

// Where the log cannot be renamed it does not grow, and requests are answered.
func TestADecisionLogThatCannotBeRenamed(t *testing.T) {
	const most = 5000
	log := filepath.Join(t.TempDir(), "decisions.jsonl")
	if err := os.MkdirAll(filepath.Join(log+".1", "folder"), 0o700); err != nil {
		t.Fatal(err)
	}
	it := serveExample(t, "notes", "--decision-log", log, "--decisions-max", fmt.Sprint(most))
	it.others(100)
	it.decisions.flush()
	found, err := os.Stat(log)
	if err != nil || found.Size() > most || found.Size() < most/2 || it.decisions.failures() < 50 {
		t.Error(found, err, it.decisions.failures())
	}
}

// Keys that are left out are in no line of the log, whatever the request is. The others are as they were.
func TestKeysThatAreLeftOut(t *testing.T) {
	log := filepath.Join(t.TempDir(), "decisions.jsonl")
	it := serveExample(t, "photos", "--decision-log", log, "--decisions-omit", "principal,entities,context", "--entities-in-requests")
	const secret = "secret"
	resource := `"action":"Action::\"view\"","resource":"Photo::\"beach\""`
	users := `[{"uid":{"type":"User","id":"secret"}}]`
	requests := []string{
		`{"principal":"User::\"secret\"",` + resource + `}`,
		`{"principal":"User::\"secret\"","context":{},` + resource + `,"entities":` + users + `}`,
		"{\"context\":{\n},\n\"entities\":\n" + users + `,"principal":{"type":"User","id":"secret"},` + resource + `}`,
		`{"principal":"User::\"secret\"","context":{"secret":1},` + resource + `}`,
		`{"pr\u0069ncipal":"User::\"secret\"",` + resource + `}`,
		`{"principal":"User::\"secret\"",` + resource + `,"principal":"User::\"secret\""}`,
		`{"secret":1}`, `secret`, `["secret"]`, `{"principal":"secret`, ``,
	}
	for _, request := range requests {
		it.ask(request)
	}
	it.askLines(strings.Join(append(requests[:2:2], requests[3:]...), "\n"))
	it.decisions.flush()
	text, err := os.ReadFile(log)
	if err != nil || strings.Contains(string(text), secret) {
		t.Error(err, string(text))
	}
	all := decisionsOf(t, log)
	if one := all[0]; one.Request != `{`+resource+`}` || strings.Join(one.Omitted, " ") != "principal" || !strings.Contains(one.Answer, `"decision"`) {
		t.Error(one)
	}
	if one := all[2]; one.Request != `{`+resource+`}` || strings.Join(one.Omitted, " ") != "context entities principal" {
		t.Error(one)
	}
	if one := all[3]; one.Request != "" || strings.Join(one.Omitted, " ") != "request" || !strings.HasPrefix(one.Answer, `{"refused":`) {
		t.Error(one)
	}
	_, files := copied(t, "photos")
	if said, status := replay(t, log, files...); status != 0 || said != fmt.Sprintf("0 same, 0 differ, %d left out\n", len(all)) {
		t.Error(status, said)
	}
}

// Without a key that is left out a request is logged as it was, and can be answered anew.
func TestRequestsThatLackTheKeys(t *testing.T) {
	log := filepath.Join(t.TempDir(), "decisions.jsonl")
	it := serveExample(t, "notes", "--decision-log", log, "--decisions-omit", "context")
	request := strings.Replace(line("ann", "write"), ",", " ,\t", 1)
	it.ask(request)
	it.ask(strings.Replace(request, "{", `{"context":{},`, 1))
	it.decisions.flush()
	if all := decisionsOf(t, log); len(all) != 2 || all[0].Request != request || all[0].Omitted != nil {
		t.Error(all)
	}
	_, files := copied(t, "notes")
	if said, status := replay(t, log, files...); status != 0 || said != "1 same, 0 differ, 1 left out\n" {
		t.Error(status, said)
	}
}

func TestTheDecisionLogIsOff(t *testing.T) {
	it := serveExample(t, "notes")
	it.others(1)
	if got := it.ask(line("ann", "write")); got.header["Cedar-Decision-Id"] != nil {
		t.Error(got.header)
	}
	if it.decisions != nil || strings.Contains(it.log.String(), "ann") {
		t.Error(it.log.String())
	}
}

func TestQuotedStrings(t *testing.T) {
	for _, text := range []string{"", "a", "\"\\/\b\f\n\r\t\x00\x1f\x7f", "é😀\u2028", "<&>"} {
		var read string
		if err := json.Unmarshal(appendQuoted(nil, text), &read); err != nil || read != text {
			t.Errorf("%q %q %v", text, read, err)
		}
	}
	if got := string(appendQuoted([]byte("x"), "a\xffb\xe2\x82")); got != "x\"a\ufffdb\ufffd\ufffd\"" {
		t.Errorf("%q", got)
	}
}

// limitFiles has files of this process end at so many bytes, as a disk that is full does, until the test ends or the limit is taken away.
func limitFiles(t *testing.T, most uint64) (takeAway func()) {
	t.Helper()
	var old syscall.Rlimit
	if err := syscall.Getrlimit(syscall.RLIMIT_FSIZE, &old); err != nil {
		t.Skip(err)
	}
	signal.Ignore(syscall.SIGXFSZ)
	takeAway = func() { _ = syscall.Setrlimit(syscall.RLIMIT_FSIZE, &old) }
	t.Cleanup(func() { takeAway(); signal.Reset(syscall.SIGXFSZ) })
	if err := syscall.Setrlimit(syscall.RLIMIT_FSIZE, &syscall.Rlimit{Cur: most, Max: old.Max}); err != nil {
		t.Skip(err)
	}
	return takeAway
}

// Where a disk is full for a while decisions are lost, but the log has whole lines, and standard error says so.
func TestADiskThatIsFullForAWhile(t *testing.T) {
	path := filepath.Join(t.TempDir(), "decisions.jsonl")
	it := serveExample(t, "notes", "--decision-log", path)
	takeAway := limitFiles(t, 1000)
	for turn := 0; turn < 10; turn++ {
		if got := it.ask(line("ann", "write")); got.status != 200 || got.body != allowedAnswer {
			t.Error(got)
		}
		it.decisions.flush()
	}
	takeAway()
	eventually(t, "the log says it", func() bool {
		return strings.Contains(it.log.String(), `"event":"decision_log","failures":`) && strings.Contains(it.log.String(), "file too large")
	})
	it.ask(line("ann", "write"))
	it.decisions.flush()
	text, err := os.ReadFile(path)
	lines := strings.Split(strings.TrimSuffix(string(text), "\n"), "\n")
	if err != nil || it.decisions.failures() == 0 || len(lines) < 3 || len(lines) > 10 || it.decisions.size != int64(len(text)) {
		t.Error(err, it.decisions.failures(), len(lines), it.decisions.size, len(text))
	}
	for _, one := range lines {
		if !json.Valid([]byte(one)) {
			t.Error(one)
		}
	}
}
