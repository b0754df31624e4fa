package main

import (
	"fmt"
	"net"
	"os"
	"path/filepath"
	"regexp"
	"strconv"
	"strings"
	"testing"
	"time"
)

func TestState(t *testing.T) {
	it := serveExample(t, "notes", "--public-validate")
	if got := it.get("/healthz"); got.status != 200 || got.body != `{"healthy":true}`+"\n" {
		t.Error(got)
	}
	ready := decoded[readiness](t, it.get("/readyz").body)
	if !ready.Ready || ready.Version != 1 || ready.Reload != nil {
		t.Error(ready)
	}
	for _, path := range []string{"/healthz", "/readyz", "/metrics", "/v1/version"} {
		for _, address := range []string{it.address, it.admin} {
			if got := it.call("GET", path, "", "", address); got.status != 200 {
				t.Error(path, got)
			}
			if got := it.call("HEAD", path, "", "", address); got.status != 200 || got.body != "" {
				t.Error(path, got)
			}
			if got := it.call("POST", path, "", "", address); got.status != 405 || got.header.Get("Allow") != "GET, HEAD" {
				t.Error(path, got)
			}
		}
	}
	for _, path := range []string{"/v1/authorize", "/v1/validate"} {
		if got := it.get(path); got.status != 405 || got.header.Get("Allow") != "POST" {
			t.Error(path, got)
		}
	}
}

// A path is that which was sent: with an escape it is another one.
func TestPathsAreNotDecoded(t *testing.T) {
	it := serveMapping(t, notesMapping)
	for _, path := range []string{"/v1%2fversion", "/v1/%76ersion", "/v1/versio%6E", "/%6detrics", "/v1%2Fauthorize", "/v1/%61uthorize",
		"/v1/./version", "/v1//version", "//v1/version", "/v1/x/../version", "/v1/version/", "/v1/version%00", "/v1%2fext_authz/notebooks/plans",
		"/v1/%65ntities", "/v1/%76alidate", "/v1/%72eload"} {
		for _, address := range []string{it.address, it.admin} {
			for _, method := range []string{"GET", "POST", "PUT"} {
				connection, err := net.Dial("tcp", address)
				if err != nil {
					t.Fatal(err)
				}
				fmt.Fprintf(connection, "%s %s HTTP/1.1\r\nHost: a\r\nX-User: ann\r\nContent-Length: 0\r\n\r\n", method, path)
				if got := status(connection); got != 404 {
					t.Error(method, path, got)
				}
				_ = connection.Close()
			}
		}
	}
}

func TestMetricsCount(t *testing.T) {
	it := serveExample(t, "notes")
	if got := it.askLines(content(t, "notes", "requests.jsonl")); got.status != 200 {
		t.Fatal(got)
	}
	it.ask(line("ann", "write"))
	it.ask("{")
	it.call("POST", "/v1/authorize", "text/plain", "")
	// examples/notes/answers.jsonl has two allows, four denies and two refusals.
	for name, wanted := range map[string]string{`decisions_total{decision="allow"}`: "3", `decisions_total{decision="deny"}`: "4",
		`refusals_total{number="502"}`: "1", `refusals_total{number="510"}`: "1", `refusals_total{number="501"}`: "1",
		`failures_total{reason="media_type"}`: "1", `request_seconds_count{call="authorize"}`: "2",
		`request_seconds_count{call="authorize_lines"}`: "1", `request_seconds_bucket{call="authorize",le="+Inf"}`: "2",
		"version": "1", `publications_total{result="published"}`: "1", "connections_turned_away_total": "0"} {
		if got := it.metric(name); got != wanted {
			t.Error(name, got)
		}
	}
	if got := it.metric(fmt.Sprintf("version_info{digest=%q}", it.store.current.Load().digest)); got != "1" {
		t.Error(got)
	}
	if bytes, err := strconv.Atoi(it.metric("engine_bytes")); err != nil || bytes < 10_000 {
		t.Error(bytes, err)
	}
}

// value gives the value of a metric with its whole name.
func (s *served) value(name string) float64 {
	s.t.Helper()
	for _, line := range strings.Split(s.get("/metrics").body, "\n") {
		if text := strings.TrimPrefix(line, name+" "); text != line {
			value, err := strconv.ParseFloat(text, 64)
			if err != nil {
				s.t.Error(line)
			}
			return value
		}
	}
	s.t.Error("no metric ", name)
	return 0
}

// The alerts that docs/PRODUCTION.md and README.md name are of metrics that are there.
func TestAlertsNameMetrics(t *testing.T) {
	it := serveExample(t, "notes", "--decision-log", filepath.Join(t.TempDir(), "decisions.jsonl"))
	metrics := it.get("/metrics").body
	for _, path := range []string{"../../docs/PRODUCTION.md", "README.md"} {
		text, err := os.ReadFile(path)
		if err != nil {
			t.Fatal(err)
		}
		names := regexp.MustCompile(`cedar_agent_\w+`).FindAllString(string(text), -1)
		if len(names) < 4 {
			t.Error(path, names)
		}
		for _, name := range names {
			if !strings.Contains(metrics, "# TYPE "+name+" ") {
				t.Error(path, name)
			}
		}
	}
}

// What alerts need: when the last version was published, and whether files that changed are refused.
func TestMetricsOfPublications(t *testing.T) {
	it := serveExample(t, "notes")
	const published, isFailing = "cedar_agent_last_publish_timestamp_seconds", `cedar_agent_reload_failing{what="files"}`
	first := it.value(published)
	if age := float64(time.Now().UnixMilli())/1000 - first; age < 0 || age > 30 || it.value(isFailing) != 0 {
		t.Error(age, it.value(isFailing))
	}
	write(t, filepath.Join(it.folder, "policies.cedar"), "permit(")
	eventually(t, "reloading fails", func() bool { return it.value(isFailing) == 1 })
	if got := it.value(published); got != first {
		t.Error(got, first)
	}
	write(t, filepath.Join(it.folder, "policies.cedar"), permitAll)
	eventually(t, "reloading succeeds", func() bool { return it.value(isFailing) == 0 })
	if got := it.value(published); got <= first {
		t.Error(got, first)
	}
}

// docs/PRODUCTION.md has alerts on metrics that are there.
func TestMetricsOfTheAlerts(t *testing.T) {
	it := serveExample(t, "notes")
	it.ask("{")
	it.call("POST", "/v1/authorize", "text/plain", "")
	it.metrics.erred(failedPolicy{"policy0", "overflow"})
	text, err := os.ReadFile("../../docs/PRODUCTION.md")
	if err != nil {
		t.Fatal(err)
	}
	written := it.get("/metrics").body
	names := regexp.MustCompile(`cedar_agent_\w+`).FindAllString(string(text), -1)
	if len(names) < 6 {
		t.Error(names)
	}
	for _, name := range names {
		if !regexp.MustCompile(`(?m)^` + name + `[ {]`).MatchString(written) {
			t.Error(name)
		}
	}
}

// The metrics of any process, under the names that the clients of Prometheus use.
func TestMetricsOfTheProcess(t *testing.T) {
	it := serveExample(t, "notes")
	resident, now := float64(residentBytes(t)), float64(time.Now().Unix())
	for name, bounds := range map[string][2]float64{"process_resident_memory_bytes": {resident / 2, resident * 2},
		"process_virtual_memory_bytes": {resident, 1e15}, "process_start_time_seconds": {now - 3600, now + 1}, "process_max_fds": {64, 1e10},
		"process_cpu_seconds_total": {0.01, 36000}, "go_goroutines": {5, 1000}, "go_threads": {3, 1000}, "go_memstats_alloc_bytes": {1e5, 1e9},
		"go_memstats_sys_bytes": {1e6, 1e10}, "go_gc_duration_seconds_count": {0, 1e6}} {
		if got := it.value(name); got < bounds[0] || got > bounds[1] {
			t.Error(name, got, bounds)
		}
	}
	before := it.value("process_open_fds")
	for at := 0; at < 10; at++ {
		it.dial()
	}
	// Each connection has two ends in this process.
	eventually(t, "the connections are counted", func() bool { return it.value("process_open_fds") >= before+20 })
}

// Profiles are on the listener for calls that publish, where they are wanted.
func TestProfiles(t *testing.T) {
	for _, words := range [][]string{nil, {"--admin-pprof"}} {
		it := serveExample(t, "notes", words...)
		for _, path := range []string{"", "heap?debug=1", "goroutine", "cmdline", "profile?seconds=1", "symbol"} {
			wanted := map[bool]int{false: 404, true: 200}[len(words) > 0]
			if got := it.call("GET", profilesPath+path, "", "", it.admin); got.status != wanted {
				t.Error(words, path, got)
			}
			if got := it.get(profilesPath + path); got.status != 404 {
				t.Error(path, got)
			}
		}
	}
}

// Refusals with more numbers than a tally has places for are counted, too. The numbers are those of docs/DATA.md.
func TestManyNumbersOfRefusals(t *testing.T) {
	it := serveExample(t, "notes")
	read := line("ann", "read")
	lines := map[string]string{"501": "{", "502": "{}", "510": line("ann", "print"), "503": strings.Replace(read, "User", "Ghost", 1),
		"506": strings.Replace(read, "{", `{"context":{"n":1},`, 1), "511": strings.Replace(read, "Notebook", "User", 1)}
	body := ""
	for at := 0; at < 3; at++ {
		for _, text := range lines {
			body += text + "\n"
		}
	}
	if got := it.askLines(body); got.status != 200 {
		t.Fatal(got)
	}
	for number := range lines {
		if got := it.metric(`refusals_total{number="` + number + `"}`); got != "3" {
			t.Error(number, got)
		}
	}
}

// Each line is a comment, or a name with a number, as the text format of Prometheus wants it.
func TestMetricsFormat(t *testing.T) {
	it := serveExample(t, "notes")
	it.metrics.erred(failedPolicy{"a\n\"\\", "overflow"})
	declared := map[string]bool{}
	for _, line := range strings.Split(strings.TrimSuffix(it.get("/metrics").body, "\n"), "\n") {
		if words := strings.Fields(line); strings.HasPrefix(line, "# ") {
			declared[words[2]] = true
			continue
		}
		name, value, isCut := strings.Cut(line, " ")
		if at := strings.LastIndex(line, "} "); at >= 0 {
			name, value = line[:at+1], line[at+2:]
		}
		plain := strings.Split(name, "{")[0]
		for _, end := range []string{"_bucket", "_sum", "_count"} {
			plain = strings.TrimSuffix(plain, end)
		}
		if _, err := strconv.ParseFloat(value, 64); err != nil || !isCut || !declared[plain] {
			t.Errorf("%q", line)
		}
	}
	if got := it.metric(`erring_total{policy="a\n\"\\",error="overflow"}`); got != "1" {
		t.Error(got)
	}
}

func TestPoliciesThatAreCountedTogether(t *testing.T) {
	m := newMetrics()
	for at := 0; at < countedPolicies+5; at++ {
		m.erred(failedPolicy{fmt.Sprint(at), "overflow"})
	}
	if len(m.erring) != countedPolicies+1 || m.erring[failedPolicy{"(others)", "overflow"}] != 5 {
		t.Error(len(m.erring))
	}
}
