package main

// Tests of the process: the built program, its signals, its exit statuses and its sockets.

import (
	"bufio"
	"bytes"
	"context"
	"encoding/json"
	"errors"
	"fmt"
	"io"
	"net"
	"net/http"
	"os"
	"os/exec"
	"path/filepath"
	"strings"
	"sync"
	"syscall"
	"testing"
	"time"
)

var (
	building  sync.Once
	builtPath string
	builtErr  error
)

// built gives the program: that of the environment, or one that is built once.
func built(t *testing.T) string {
	t.Helper()
	if path := os.Getenv("CEDAR_AGENT"); path != "" {
		return path
	}
	building.Do(func() {
		folder, err := os.MkdirTemp("", "cedar-agent")
		if err != nil {
			builtErr = err
			return
		}
		builtPath = filepath.Join(folder, "cedar-agent")
		said, err := exec.Command("go", "build", "-o", builtPath, ".").CombinedOutput()
		if err != nil {
			builtErr = fmt.Errorf("%w: %s", err, said)
		}
	})
	if builtErr != nil {
		t.Fatal(builtErr)
	}
	return builtPath
}

// TestMain removes what was built.
func TestMain(m *testing.M) {
	status := m.Run()
	if builtPath != "" {
		_ = os.RemoveAll(filepath.Dir(builtPath))
	}
	os.Exit(status)
}

// process is the program that runs.
type process struct {
	command *exec.Cmd
	log     *lockedBuffer
	client  *http.Client
	ended   chan error
}

// started starts the program over a socket of the file system, and waits until it listens.
func started(t *testing.T, socket string, words ...string) *process {
	t.Helper()
	command := exec.Command(built(t), append(words, "--listen", "unix:"+socket)...)
	it := &process{command: command, log: &lockedBuffer{}, ended: make(chan error, 1)}
	it.command.Stderr = it.log
	it.client = clientOf(socket)
	if err := it.command.Start(); err != nil {
		t.Fatal(err)
	}
	go func() { it.ended <- it.command.Wait() }()
	t.Cleanup(func() { _ = it.command.Process.Kill() })
	eventually(t, "the program listens", func() bool { return strings.Contains(it.log.String(), `"event":"listening"`) })
	return it
}

// clientOf gives a client of a socket of the file system.
func clientOf(socket string) *http.Client {
	dial := func(context.Context, string, string) (net.Conn, error) { return net.Dial("unix", socket) }
	return &http.Client{Timeout: time.Minute, Transport: &http.Transport{DialContext: dial, MaxIdleConnsPerHost: 64}}
}

// ask makes a single request.
func (p *process) ask(t *testing.T, text string) string {
	t.Helper()
	answer, err := p.client.Post("http://agent/v1/authorize", "application/json", strings.NewReader(text))
	if err != nil {
		t.Fatal(err, p.log.String())
	}
	defer answer.Body.Close()
	body, err := io.ReadAll(answer.Body)
	if err != nil {
		t.Error(err)
	}
	return string(body)
}

// end sends a signal, and gives the exit status, which is -1 where a signal ended the program.
func (p *process) end(t *testing.T, signal os.Signal) int {
	t.Helper()
	if err := p.command.Process.Signal(signal); err != nil {
		t.Fatal(err)
	}
	select {
	case <-p.ended:
	case <-time.After(30 * time.Second):
		t.Fatal("the program does not end")
	}
	return p.command.ProcessState.ExitCode()
}

func TestKilledAndStartedAgain(t *testing.T) {
	folder, files := copied(t, "notes")
	socket := filepath.Join(folder, "socket")
	for round := 0; round < 3; round++ {
		it := started(t, socket, files...)
		if got := it.ask(t, line("ann", "write")); got != allowedAnswer {
			t.Error(round, got)
		}
		if _, err := os.Stat(socket); err != nil {
			t.Error(err)
		}
		if got := it.end(t, syscall.SIGKILL); got != -1 {
			t.Error(got)
		}
		if _, err := it.client.Get("http://agent/healthz"); err == nil {
			t.Error("a process that was killed answers")
		}
	}
	it := started(t, socket, files...)
	if got := it.end(t, syscall.SIGTERM); got != statusDone {
		t.Error(got, it.log.String())
	}
	if _, err := os.Stat(socket); !errors.Is(err, os.ErrNotExist) {
		t.Error("the socket is left: ", err)
	}
}

func TestSignals(t *testing.T) {
	folder, files := copied(t, "notes")
	it := started(t, filepath.Join(folder, "socket"), append(files, "--reload", "0")...)
	write(t, filepath.Join(folder, "policies.cedar"), permitAll)
	time.Sleep(100 * time.Millisecond)
	if got := it.ask(t, line("carol", "read")); got != deniedAnswer {
		t.Error(got)
	}
	_ = it.command.Process.Signal(syscall.SIGHUP)
	eventually(t, "the files are read anew", func() bool {
		return it.ask(t, line("carol", "read")) == permittedAnswer
	})
	write(t, filepath.Join(folder, "policies.cedar"), "permit(")
	_ = it.command.Process.Signal(syscall.SIGHUP)
	eventually(t, "the log says why", func() bool { return strings.Contains(it.log.String(), `"event":"reload_refused"`) })
	if got := it.end(t, syscall.SIGINT); got != statusDone {
		t.Error(got)
	}
	lines := strings.Split(strings.TrimSuffix(it.log.String(), "\n"), "\n")
	if last := lines[len(lines)-1]; !strings.Contains(last, `"level":"info","event":"stopped"`) {
		t.Error(last)
	}
	for _, line := range lines {
		var read struct{ Time, Level, Event string }
		if err := json.Unmarshal([]byte(line), &read); err != nil || read.Level == "" || read.Event == "" {
			t.Error(line, err)
		}
		if _, err := time.Parse(time.RFC3339Nano, read.Time); err != nil {
			t.Error(line, err)
		}
	}
}

// SIGTERM lets a running request end, and takes no other.
func TestGracefulEnd(t *testing.T) {
	folder, files := copied(t, "notes")
	socket := filepath.Join(folder, "socket")
	it := started(t, socket, files...)
	connection, err := net.Dial("unix", socket)
	if err != nil {
		t.Fatal(err)
	}
	defer connection.Close()
	_ = connection.SetDeadline(time.Now().Add(20 * time.Second))
	fmt.Fprintf(connection, streamHead, "application/x-ndjson")
	_ = chunk(connection, line("ann", "write")+"\n")
	answer, err := http.ReadResponse(bufio.NewReader(connection), nil)
	if err != nil {
		t.Fatal(err)
	}
	_ = it.command.Process.Signal(syscall.SIGTERM)
	eventually(t, "it stops", func() bool { return strings.Contains(it.log.String(), `"event":"stopping"`) })
	eventually(t, "others are not taken", func() bool {
		other, err := net.Dial("unix", socket)
		if err == nil {
			_ = other.Close()
		}
		return err != nil
	})
	_ = chunk(connection, line("carol", "read")+"\n")
	fmt.Fprint(connection, "0\r\n\r\n")
	if text, err := io.ReadAll(answer.Body); err != nil || string(text) != allowedAnswer+deniedAnswer {
		t.Error(string(text), err)
	}
	select {
	case <-it.ended:
	case <-time.After(20 * time.Second):
		t.Fatal("the program does not end")
	}
	if got := it.command.ProcessState.ExitCode(); got != statusDone {
		t.Error(got, it.log.String())
	}
}

// While requests are drained they are answered, and /readyz says that others should go elsewhere.
func TestDraining(t *testing.T) {
	folder, files := copied(t, "notes")
	it := started(t, filepath.Join(folder, "socket"), append(files, "--drain", "1m")...)
	_ = it.command.Process.Signal(syscall.SIGTERM)
	eventually(t, "/readyz says so", func() bool {
		answer, err := it.client.Get("http://agent/readyz")
		if err != nil {
			t.Fatal(err)
		}
		defer answer.Body.Close()
		text, err := io.ReadAll(answer.Body)
		return err == nil && answer.StatusCode == 503 && strings.HasPrefix(string(text), `{"ready":false,`)
	})
	if got := it.ask(t, line("ann", "write")); got != allowedAnswer {
		t.Error(got)
	}
	if got := it.end(t, syscall.SIGTERM); got != statusDone {
		t.Error(got, it.log.String())
	}
}

// A request that does not end is cut off when the time for it is over, or at a second signal.
func TestEndsThatCutOff(t *testing.T) {
	for _, isTwice := range []bool{false, true} {
		folder, files := copied(t, "notes")
		socket := filepath.Join(folder, "socket")
		wait := map[bool]string{false: "300ms", true: "1m"}[isTwice]
		it := started(t, socket, append(files, "--shutdown", wait)...)
		connection, err := net.Dial("unix", socket)
		if err != nil {
			t.Fatal(err)
		}
		defer connection.Close()
		fmt.Fprint(connection, "POST /v1/authorize HTTP/1.1\r\nHost: a\r\nContent-Length: 100\r\n\r\n{")
		eventually(t, "the request is taken", func() bool {
			answer, err := it.client.Get("http://agent/metrics")
			if err != nil {
				t.Fatal(err)
			}
			defer answer.Body.Close()
			text, _ := io.ReadAll(answer.Body)
			return strings.Contains(string(text), "\ncedar_agent_connections 2\n")
		})
		if isTwice {
			_ = it.command.Process.Signal(syscall.SIGTERM)
			eventually(t, "it stops", func() bool { return strings.Contains(it.log.String(), `"event":"stopping"`) })
		}
		if got := it.end(t, syscall.SIGTERM); got != statusFailed || !strings.Contains(it.log.String(), `"event":"cut_off"`) {
			t.Error(isTwice, got, it.log.String())
		}
		if !strings.Contains(it.log.String(), `"level":"error","event":"stopped"`) {
			t.Error(it.log.String())
		}
	}
}

func TestAnAddressThatIsTaken(t *testing.T) {
	folder, files := copied(t, "notes")
	socket := filepath.Join(folder, "socket")
	started(t, socket, files...)
	for address, wanted := range map[string]string{"unix:" + socket: "another process listens at", "unix:" + folder: "is not a socket",
		"unix:" + folder + "/none/socket": "no such file", "127.0.0.1:99999": "invalid port"} {
		said, status := ran(t, append(files, "--listen", address)...)
		if status != statusFailed || !strings.Contains(said, wanted) {
			t.Error(address, status, said)
		}
	}
}

// ran runs the program to its end, and gives what it says.
func ran(t *testing.T, words ...string) (string, int) {
	t.Helper()
	path := built(t)
	limit, cancel := context.WithTimeout(context.Background(), 20*time.Second)
	defer cancel()
	command := exec.CommandContext(limit, path, words...)
	var output bytes.Buffer
	command.Stdout, command.Stderr = &output, &output
	err := command.Run()
	var ended *exec.ExitError
	if err != nil && !errors.As(err, &ended) {
		t.Fatal(err)
	}
	return output.String(), command.ProcessState.ExitCode()
}

// Files that are refused at the start are explained as the program explains them.
func TestRefusedAtTheStart(t *testing.T) {
	for _, broken := range [][3]string{{"notes", "policies.cedar", content(t, "notes", "broken_policies.cedar")},
		{"todos", "schema.json", content(t, "todos", "broken_schema.json")},
		{"photos", "entities.json", content(t, "photos", "broken_entities.json")},
		{"repositories", "links.json", content(t, "repositories", "broken_links.json")},
		{"notes", "policies.cedar", "permit(principal, action, resource) when { principal.age > 1 };"}} {
		folder, files := copied(t, broken[0])
		write(t, filepath.Join(folder, broken[1]), broken[2])
		words := []string{"authorize"}
		for at := 0; at < len(files); at += 2 {
			words = append(words, files[at], filepath.Base(files[at+1]))
		}
		_, wanted, _ := program(t, folder, "", words...)
		said, status := ran(t, append(files, "--listen", "127.0.0.1:0")...)
		if status != statusRefused || said != wanted {
			t.Errorf("%d\n%s\n%s", status, said, wanted)
		}
	}
	folder, files := copied(t, "notes")
	_ = os.Remove(filepath.Join(folder, "entities.json"))
	if said, status := ran(t, files...); status != statusFailed || !strings.Contains(said, "--entities: open ") {
		t.Error(status, said)
	}
}

func TestCommandLines(t *testing.T) {
	_, files := copied(t, "notes")
	with := func(more ...string) []string { return append(append([]string{}, files...), more...) }
	for _, wrong := range []struct {
		words  []string
		wanted string
	}{
		{nil, "missing --schema, --policies, --entities"},
		{files[2:], "missing --schema"},
		{with("x"), `unexpected word "x"`},
		{with("--unknown"), "flag provided but not defined: -unknown"},
		{with("--max-line"), "flag needs an argument: -max-line"},
		{with("--max-line", "a"), `invalid value "a" for flag -max-line`},
		{with("--max-line", "0"), "each --max- is at least 1"},
		{with("--max-time", "0"), "--max-time, --max-idle and --max-publish-time are more than 0"},
		{with("--language", "2"), "--language is 3 or 4"},
		{with("--language", "5"), "--language is 3 or 4"},
		{with("--language", "four"), `invalid value "four" for flag -language`},
		{with("--reload", "-1s"), "--reload, --drain and --shutdown are not negative"},
		{with("--listen", "8180"), "--listen: an address is HOST:PORT or unix:PATH"},
		{with("--listen", "unix:"), "--listen: an address is HOST:PORT or unix:PATH"},
		{with("--admin", "8181"), "--admin: an address is HOST:PORT or unix:PATH"},
		{with("--admin", "127.0.0.1:8180", "--admin-insecure"), "--admin and --listen are one address"},
		{with("--admin", "127.0.0.1:8181"), "--admin: whoever reaches 127.0.0.1:8181 could publish: give --admin-token, use unix:PATH, or say --admin-insecure"},
		{with("--admin", "unix:a", "--admin-mode", "0606"), "--admin-mode: all users of the machine could publish"},
		{with("--admin", "unix:a", "--admin-mode", "rw"), "--admin-mode: a mode has octal digits, for example 0660"},
		{with("--admin", "unix:a", "--admin-mode", "1777"), "--admin-mode: a mode has octal digits, for example 0660"},
		{with("--admin", "unix:a", "--admin-users", "root,nobody-is-called-so"), `--admin-users: there is no user "nobody-is-called-so"`},
		{with("--admin", "unix:a", "--admin-users", "0,"), `--admin-users: there is no user ""`},
		{with("--admin", "127.0.0.1:8181", "--admin-insecure", "--admin-users", "0"), "--admin-users needs --admin unix:PATH"},
		{with("--admin", "127.0.0.1:8181", "--admin-insecure", "--admin-mode", "0600"), "--admin-mode needs --admin unix:PATH"},
		{with("--admin-token", files[1]), "--admin-token needs --admin"},
		{with("--tls-cert", files[1]), "--tls-cert and --tls-key need each other, and --tls-client-ca needs both"},
		{with("--tls-key", files[1]), "--tls-cert and --tls-key need each other"},
		{with("--tls-client-ca", files[1]), "--tls-cert and --tls-key need each other"},
		{with("--tls-cert", files[1], "--tls-key", files[1], "--listen", "unix:a", "--admin", "unix:b"), "--tls-cert needs a HOST:PORT"},
		{with("--decisions-max", "7"), "--decisions-max and --decisions-omit need --decision-log"},
		{with("--decisions-omit", "context"), "--decisions-max and --decisions-omit need --decision-log"},
		{with("--decision-log", "x", "--decisions-omit", "context,answer"), `--decisions-omit: "answer" is none of principal`},
		{with("--decision-log", "x", "--decisions-max", "-1"), "--decisions-max is not negative"},
		{with("--ext-authz-policies"), "--ext-authz-policies needs --ext-authz"},
		{with("--listen-mode", "0660"), "--listen-mode needs --listen unix:PATH"},
		{with("--listen-group", "0"), "--listen-group needs --listen unix:PATH"},
		{with("--admin-pprof"), "--admin-pprof needs --admin"},
		{with("--ext-authz", files[1]), "--ext-authz: "},
		{with("--ext-authz", "/none"), "--ext-authz: open /none"},
	} {
		said, status := ran(t, wrong.words...)
		if status != statusUsage || !strings.HasPrefix(said, "cedar-agent: ") || !strings.Contains(said, wrong.wanted) {
			t.Error(wrong.words, status, said)
		}
	}
	said, status := ran(t, "--help")
	if status != statusDone || !strings.Contains(said, "Usage: cedar-agent --schema FILE") {
		t.Error(status, said)
	}
	flagsOf(&config{}).VisitAll(visited(t, said))
	if said, status := ran(t, "--version"); status != statusDone || !strings.HasPrefix(said, "cedar-agent ") || strings.Count(said, ".") != 2 {
		t.Error(status, said)
	}
}

// The socket for calls that publish can be opened by the user of the process alone.
func TestTheModeOfTheAdminSocket(t *testing.T) {
	folder, files := copied(t, "notes")
	socket := filepath.Join(folder, "admin")
	started(t, filepath.Join(folder, "socket"), append(files, "--admin", "unix:"+socket)...)
	eventually(t, "the socket is there", func() bool {
		found, err := os.Stat(socket)
		return err == nil && found.Mode().Perm() == 0o600
	})
}

// With less stack than the deepest files need, the program does not start.
func TestTooSmallAStack(t *testing.T) {
	_, files := copied(t, "notes")
	words := append([]string{"-c", `ulimit -s 768 && exec "$0" "$@"`, built(t)}, append(files, "--listen", "127.0.0.1:0")...)
	ends, cancel := context.WithTimeout(context.Background(), 20*time.Second)
	defer cancel()
	said, err := exec.CommandContext(ends, "bash", words...).CombinedOutput()
	var ended *exec.ExitError
	if !errors.As(err, &ended) || ended.ExitCode() != statusFailed || !strings.Contains(string(said), "ulimit -s 8192") {
		t.Error(err, string(said))
	}
}
