package main

import (
	"os"
	"path/filepath"
	"strings"
	"syscall"
	"testing"
	"time"
)

// Ann of examples/photos views the beach, as a member of a group. These changes remove her.
const (
	annViews  = `{"principal":"User::\"ann\"","action":"Action::\"view\"","resource":"Photo::\"beach\""}`
	annIsGone = `{"remove":[{"type":"User","id":"ann"}]}`
)

// mayView says whether ann may view the beach.
func (s *served) mayView() bool {
	s.t.Helper()
	return strings.Contains(s.ask(annViews).body, `"decision":"allow"`)
}

// removeAnn removes ann by a call.
func (s *served) removeAnn() {
	s.t.Helper()
	if !s.mayView() {
		s.t.Fatal("ann may not view")
	}
	if got := s.call("PATCH", "/v1/entities", "", annIsGone, s.admin); got.status != 200 || s.mayView() {
		s.t.Fatal(got)
	}
}

// reload reads the files by a call.
func (s *served) reload(query string) reply {
	s.t.Helper()
	return s.call("POST", "/v1/reload"+query, "", "", s.admin)
}

// A log that was renamed is begun anew without a signal, and rotation undoes nothing that a call has published.
func TestRotationUndoesNothing(t *testing.T) {
	log := filepath.Join(t.TempDir(), "decisions.jsonl")
	it := serveExample(t, "photos", "--decision-log", log)
	it.removeAnn()
	it.decisions.flush()
	if err := os.Rename(log, log+".1"); err != nil {
		t.Fatal(err)
	}
	eventually(t, "the log is there", func() bool {
		_, err := os.Stat(log)
		return err == nil
	})
	it.hangups <- struct{}{}
	eventually(t, "the log says what is held", func() bool { return strings.Contains(it.log.String(), `"event":"reload_held"`) })
	if it.mayView() || it.metric("version") != "2" {
		t.Error(it.log.String())
	}
	it.decisions.flush()
	for path, wanted := range map[string]int{log + ".1": 2, log: 1} {
		if text, err := os.ReadFile(path); err != nil || strings.Count(string(text), "\n") != wanted {
			t.Error(path, err, string(text))
		}
	}
}

// Files that are as they were published last are not published again.
func TestUnchangedFilesAreNotPublished(t *testing.T) {
	it := serveExample(t, "photos")
	it.hangups <- struct{}{}
	if got := it.reload(""); got.status != 200 || decoded[currentVersion](t, got.body).Version != 1 {
		t.Error(got)
	}
	eventually(t, "SIGHUP is taken", func() bool { return len(it.hangups) == 0 })
	time.Sleep(100 * time.Millisecond)
	if got := it.metric("version"); got != "1" {
		t.Error(got)
	}
}

// A file that has changed replaces what a call has published only where that is forced. Other files are published.
func TestReloadsAreForced(t *testing.T) {
	it := serveExample(t, "photos")
	it.removeAnn()
	got := it.reload("")
	if now := decoded[currentVersion](t, got.body); got.status != 200 || now.Version != 2 || strings.Join(now.Held, " ") != "entities" {
		t.Error(got)
	}
	write(t, filepath.Join(it.folder, "policies.cedar"), content(t, "photos", "policies.cedar")+"\n")
	eventually(t, "the policies are published", func() bool { return it.store.current.Load().number == 3 })
	if it.mayView() {
		t.Error("ann is back")
	}
	write(t, filepath.Join(it.folder, "entities.json"), content(t, "photos", "entities.json")+"\n")
	eventually(t, "/readyz says why", func() bool { return strings.Contains(it.get("/readyz").body, "calls have published other entities") })
	if got := it.reload(""); got.status != 409 || !strings.Contains(got.body, "calls have published other entities") || it.mayView() {
		t.Error(got)
	}
	for _, query := range []string{"?force=false", "?forced=true", "?force=true&x=1", "?force"} {
		if got := it.reload(query); got.status != 400 || it.mayView() {
			t.Error(query, got)
		}
	}
	got = it.reload("?force=true")
	if now := decoded[currentVersion](t, got.body); got.status != 200 || now.Version != 4 || len(now.Held) > 0 || !it.mayView() {
		t.Error(got)
	}
	eventually(t, "/readyz forgets", func() bool { return !strings.Contains(it.get("/readyz").body, "reload") })
	// Also where the file has not changed.
	it.removeAnn()
	if got := it.reload("?force=true"); got.status != 200 || !it.mayView() {
		t.Error(got)
	}
	if got := it.call("POST", "/v1/reload", "", ""); got.status != 404 {
		t.Error(got)
	}
	if got := it.call("GET", "/v1/reload", "", "", it.admin); got.status != 405 || got.header.Get("Allow") != "POST" {
		t.Error(got)
	}
	page := it.request("POST", "http://"+it.admin+"/v1/reload", "", nil)
	page.Header.Set("Origin", "http://example.com")
	if got := it.send(page); got.status != 403 {
		t.Error(got)
	}
}

// With the flag a changed file replaces what calls have published, and a file that has not changed does not.
func TestReloadsThatReplace(t *testing.T) {
	it := serveExample(t, "photos", "--reload-replaces")
	it.removeAnn()
	it.hangups <- struct{}{}
	eventually(t, "the log says what is held", func() bool { return strings.Contains(it.log.String(), `"event":"reload_held"`) })
	if it.mayView() {
		t.Error("ann is back")
	}
	write(t, filepath.Join(it.folder, "entities.json"), content(t, "photos", "entities.json")+"\n")
	eventually(t, "the entities are published", it.mayView)
}

// SIGUSR1 opens the decision log anew at once, and reads no file.
func TestTheSignalOfTheDecisionLog(t *testing.T) {
	folder, files := copied(t, "notes")
	log := filepath.Join(folder, "decisions.jsonl")
	it := started(t, filepath.Join(folder, "socket"), append(files, "--reload", "0", "--decision-log", log)...)
	write(t, filepath.Join(folder, "policies.cedar"), permitAll)
	if err := os.Rename(log, log+".1"); err != nil {
		t.Fatal(err)
	}
	_ = it.command.Process.Signal(syscall.SIGUSR1)
	eventually(t, "the log is there", func() bool {
		_, err := os.Stat(log)
		return err == nil
	})
	if got := it.ask(t, line("carol", "read")); got != deniedAnswer {
		t.Error(got)
	}
	if got := it.end(t, syscall.SIGTERM); got != statusDone {
		t.Error(got)
	}
	if text, err := os.ReadFile(log); err != nil || strings.Count(string(text), "\n") != 1 {
		t.Error(err, string(text))
	}
}
