package main

// What the tests share: agents that serve in this process, clients, and the examples of this repository.

import (
	"bytes"
	"encoding/json"
	"errors"
	"flag"
	"fmt"
	"io"
	"net"
	"net/http"
	"os"
	"os/exec"
	"path/filepath"
	"regexp"
	"strings"
	"sync"
	"testing"
	"time"
)

const examplesFolder = "../../examples"

// exampleFiles are the files of an example that an agent reads.
var exampleFiles = []string{"schema.json", "policies.cedar", "links.json", "entities.json"}

// content gives a file of an example; it is empty where there is none.
func content(t testing.TB, name, file string) string {
	text, err := os.ReadFile(filepath.Join(examplesFolder, name, file))
	if err != nil && !errors.Is(err, os.ErrNotExist) {
		t.Fatal(err)
	}
	return string(text)
}

// exampleNames gives the examples that have answers and need no options.
func exampleNames(t testing.TB) []string {
	found, err := filepath.Glob(filepath.Join(examplesFolder, "*", "answers.jsonl"))
	if err != nil || len(found) < 5 {
		t.Fatal("no examples: ", err)
	}
	var names []string
	for _, path := range found {
		name := filepath.Base(filepath.Dir(path))
		if content(t, name, "options") == "" {
			names = append(names, name)
		}
	}
	return names
}

// copied puts the files of an example into a folder of the test, and gives the flags that name them.
func copied(t testing.TB, name string) (string, []string) {
	folder := t.TempDir()
	words := []string{}
	for _, file := range exampleFiles {
		if text := content(t, name, file); text != "" {
			write(t, filepath.Join(folder, file), text)
			words = append(words, "--"+strings.Split(file, ".")[0], filepath.Join(folder, file))
		}
	}
	return folder, words
}

// write replaces a file at once.
func write(t testing.TB, path, text string) {
	t.Helper()
	if err := os.WriteFile(path+".new", []byte(text), 0o600); err != nil {
		t.Fatal(err)
	}
	if err := os.Rename(path+".new", path); err != nil {
		t.Fatal(err)
	}
}

// lockedBuffer is a writer that a test reads while others write.
type lockedBuffer struct {
	lock sync.Mutex
	text bytes.Buffer
}

func (b *lockedBuffer) Write(text []byte) (int, error) {
	b.lock.Lock()
	defer b.lock.Unlock()
	return b.text.Write(text)
}

func (b *lockedBuffer) String() string {
	b.lock.Lock()
	defer b.lock.Unlock()
	return b.text.String()
}

// served is an agent that serves in this process.
type served struct {
	*agent
	t              testing.TB
	folder         string
	address, admin string
	client         *http.Client
	log            *lockedBuffer
	hangups, ends  chan struct{}
	done           chan bool
}

// serveExample serves an example, with further flags.
func serveExample(t testing.TB, name string, words ...string) *served {
	t.Helper()
	folder, files := copied(t, name)
	flags := append(append(files, "--listen", "127.0.0.1:0", "--admin", "127.0.0.1:0", "--admin-insecure", "--reload", "20ms"), words...)
	settings, err := parseConfig(withoutTwins(flags))
	if err != nil {
		t.Fatal(err)
	}
	it := &served{t: t, folder: folder, log: &lockedBuffer{}}
	it.hangups, it.ends, it.done = make(chan struct{}, 1), make(chan struct{}, 2), make(chan bool, 1)
	if it.agent, err = newAgent(settings, newLogger(it.log)); err != nil {
		t.Fatal(err)
	}
	all, err := listenAll(it.agent, settings)
	if err != nil {
		t.Fatal(err)
	}
	it.address = all.running[0].listener.Addr().String()
	it.admin = all.running[1].listener.Addr().String()
	it.client = &http.Client{Transport: &http.Transport{MaxIdleConnsPerHost: 64, DisableCompression: true}, Timeout: time.Minute}
	go func() { it.done <- all.serve(it.hangups, it.ends) }()
	t.Cleanup(it.stop)
	return it
}

// withoutTwins makes both listeners differ: the port 0 is another one each time.
func withoutTwins(flags []string) []string {
	for at, word := range flags {
		if word == "--admin" && flags[at+1] == "127.0.0.1:0" {
			flags[at+1] = "localhost:0"
		}
	}
	return flags
}

// stop ends the agent.
func (s *served) stop() {
	select {
	case s.ends <- struct{}{}:
	default:
	}
	select {
	case <-s.done:
	case <-time.After(30 * time.Second):
		s.t.Error("the agent does not end")
	}
	s.agent.close()
	s.client.CloseIdleConnections()
}

// reply is the answer to a call.
type reply struct {
	status int
	body   string
	header http.Header
	words  string // of a refused request, which are then not in the body; only ask sets them
}

// addedWords are the words that are added to the number of a refusal.
var addedWords = regexp.MustCompile(`^({"refused":\d+),"words":("(?:[^"\\]|\\.)*")}\n$`)

// call makes a call of the listener for requests, or of that for publishing where the address is given.
func (s *served) call(method, path, mediaType, body string, addresses ...string) reply {
	s.t.Helper()
	address := s.address
	if len(addresses) > 0 {
		address = addresses[0]
	}
	return s.send(s.request(method, "http://"+address+path, mediaType, strings.NewReader(body)))
}

// request makes a request of HTTP.
func (s *served) request(method, url, mediaType string, body io.Reader) *http.Request {
	s.t.Helper()
	request, err := http.NewRequest(method, url, body)
	if err != nil {
		s.t.Fatal(err)
	}
	if mediaType != "" {
		request.Header.Set("Content-Type", mediaType)
	}
	return request
}

// send sends a request of HTTP, and reads the answer.
func (s *served) send(request *http.Request) reply {
	s.t.Helper()
	answer, err := s.client.Do(request)
	if err != nil {
		s.t.Error(request.Method, request.URL.Path, err)
		return reply{}
	}
	defer answer.Body.Close()
	text, err := io.ReadAll(answer.Body)
	if err != nil {
		s.t.Error(request.Method, request.URL.Path, err)
	}
	return reply{status: answer.StatusCode, body: string(text), header: answer.Header}
}

// ask makes a single request.
func (s *served) ask(line string) reply {
	s.t.Helper()
	got := s.call("POST", "/v1/authorize", "application/json", line)
	if found := addedWords.FindStringSubmatch(got.body); found != nil {
		got.body, got.words = found[1]+"}\n", decoded[string](s.t, found[2])
	}
	return got
}

// askLines sends request lines.
func (s *served) askLines(lines string) reply {
	s.t.Helper()
	return s.call("POST", "/v1/authorize", "application/x-ndjson", lines)
}

// askStream sends request lines without their length, so that they are answered while they arrive.
func (s *served) askStream(lines string) reply {
	s.t.Helper()
	body := io.MultiReader(strings.NewReader(lines))
	return s.send(s.request("POST", "http://"+s.address+"/v1/authorize", "application/x-ndjson", body))
}

// put publishes a file.
func (s *served) put(path, body string) reply {
	s.t.Helper()
	return s.call("PUT", path, "", body, s.admin)
}

// get reads a path.
func (s *served) get(path string) reply {
	s.t.Helper()
	return s.call("GET", path, "", "")
}

// metric gives the value of a metric, for example `version`; it is empty where the metric is not there.
func (s *served) metric(name string) string {
	s.t.Helper()
	for _, line := range strings.Split(s.get("/metrics").body, "\n") {
		if value := strings.TrimPrefix(line, "cedar_agent_"+name+" "); value != line {
			return value
		}
	}
	return ""
}

// dial opens a connection to the listener for requests.
func (s *served) dial() net.Conn {
	s.t.Helper()
	connection, err := net.Dial("tcp", s.address)
	if err != nil {
		s.t.Fatal(err)
	}
	s.t.Cleanup(func() { _ = connection.Close() })
	return connection
}

// eventually waits until something is so.
func eventually(t testing.TB, what string, isSo func() bool) {
	t.Helper()
	for end := time.Now().Add(30 * time.Second); time.Now().Before(end); time.Sleep(5 * time.Millisecond) {
		if isSo() {
			return
		}
	}
	t.Fatal("in half a minute it did not happen: ", what)
}

// decoded reads JSON.
func decoded[T any](t testing.TB, text string) T {
	t.Helper()
	var it T
	if err := json.Unmarshal([]byte(text), &it); err != nil {
		t.Fatal(err, text)
	}
	return it
}

// programPath gives the program `cedar`; the test is skipped where it is not there.
func programPath(t testing.TB) string {
	path := os.Getenv("CEDAR_PROGRAM")
	if path == "" {
		path = "../../release/cedar"
	}
	whole, err := filepath.Abs(path)
	if err == nil {
		_, err = os.Stat(whole)
	}
	if err != nil {
		t.Skip("the program is not there: ", err)
	}
	return whole
}

// program gives what the program prints, what it explains, and its status.
func program(t testing.TB, folder, input string, words ...string) (string, string, int) {
	t.Helper()
	command := exec.Command(programPath(t), words...)
	command.Dir, command.Stdin = folder, strings.NewReader(input)
	var output, errorOutput bytes.Buffer
	command.Stdout, command.Stderr = &output, &errorOutput
	err := command.Run()
	var ended *exec.ExitError
	if err != nil && !errors.As(err, &ended) {
		t.Fatal(err)
	}
	return output.String(), errorOutput.String(), command.ProcessState.ExitCode()
}

// line makes a request line of examples/notes.
func line(principal, action string) string {
	return fmt.Sprintf(`{"principal":"User::\"%s\"","action":"Action::\"%s\"","resource":"Notebook::\"plans\""}`, principal, action)
}

// The answers to line("ann", "write") and line("carol", "read") according to examples/notes/answers.jsonl.
const (
	allowedAnswer = `{"decision":"allow","determining":["policy0"],"erring":[]}` + "\n"
	deniedAnswer  = `{"decision":"deny","determining":[],"erring":[]}` + "\n"
)

// visited checks that the help has each flag.
func visited(t *testing.T, help string) func(*flag.Flag) {
	return func(it *flag.Flag) {
		if !strings.Contains(help, "--"+it.Name) || it.Usage == "" {
			t.Error(it.Name)
		}
	}
}

// residentBytes gives the memory of this process that is resident. The test is skipped where the system does not say it.
func residentBytes(t *testing.T) int64 {
	text, err := os.ReadFile("/proc/self/statm")
	if err != nil {
		t.Skip(err)
	}
	var all, resident int64
	if _, err := fmt.Sscan(string(text), &all, &resident); err != nil {
		t.Fatal(err)
	}
	return resident * int64(os.Getpagesize())
}
