package main

import (
	"fmt"
	"net/http"
	"os"
	"path/filepath"
	"strconv"
	"strings"
	"syscall"
	"testing"
)

const (
	token      = "correct-horse-battery"
	otherToken = "staple-battery-horse-2"
)

// tokenFile writes the file of a token.
func tokenFile(t *testing.T, text string, mode os.FileMode) string {
	path := filepath.Join(t.TempDir(), "token")
	if err := os.WriteFile(path, []byte(text), mode); err != nil {
		t.Fatal(err)
	}
	if err := os.Chmod(path, mode); err != nil {
		t.Fatal(err)
	}
	return path
}

// publishWith publishes with the values of the header Authorization.
func (s *served) publishWith(values ...string) int {
	s.t.Helper()
	request := s.request("PUT", "http://"+s.admin+"/v1/policies", "", strings.NewReader(permitAll))
	request.Header["Authorization"] = values
	return s.send(request).status
}

// Each call of the listener for publishing needs the token, and none of the other one does.
func TestTheToken(t *testing.T) {
	path := tokenFile(t, token+"\n", 0o640)
	it := serveExample(t, "notes", "--admin-token", path, "--admin-pprof")
	for _, values := range [][]string{nil, {""}, {"Bearer"}, {"Bearer "}, {token}, {"Bearer " + token[1:]}, {"Bearer " + token + "x"}, {"Bearer  " + token},
		{"Basic " + token}, {"Bearer " + otherToken}, {"Bearer " + token, "Bearer " + token}, {"Bearer " + strings.ToUpper(token)}} {
		if got := it.publishWith(values...); got != 401 || it.metric("version") != "1" {
			t.Error(values, got)
		}
	}
	for _, call := range []string{"GET /v1/entities", "GET /v1/version", "GET /metrics", "GET /debug/pprof/", "PATCH /v1/entities", "POST /v1/reload",
		"POST /v1/validate", "POST /v1/why", "GET /none"} {
		method, path, _ := strings.Cut(call, " ")
		if got := it.call(method, path, "", "", it.admin); got.status != 401 || got.header.Get("WWW-Authenticate") != "Bearer" {
			t.Error(call, got)
		}
	}
	for at, scheme := range []string{"Bearer ", "bearer "} {
		if got := it.publishWith(scheme + token); got != 200 || it.metric("version") != strconv.Itoa(at+2) {
			t.Error(got)
		}
	}
	if got := it.ask(line("carol", "read")); got.status != 200 {
		t.Error(got)
	}
}

// The token is read again when its file changes, and at SIGHUP. One that cannot be used changes nothing.
func TestTheTokenIsReadAgain(t *testing.T) {
	for _, every := range []string{"20ms", "0"} {
		path := tokenFile(t, token, 0o600)
		it := serveExample(t, "notes", "--admin-token", path, "--reload", every)
		change := func(text string) {
			write(t, path, text)
			if every == "0" {
				it.hangups <- struct{}{}
			}
		}
		change(otherToken)
		eventually(t, "the other token is read", func() bool { return it.publishWith("Bearer "+otherToken) == 200 })
		if got := it.publishWith("Bearer " + token); got != 401 {
			t.Error(got)
		}
		change("short")
		eventually(t, "the metric says so", func() bool { return it.value(`cedar_agent_reload_failing{what="token"}`) == 1 })
		if got := it.publishWith("Bearer short"); got != 401 {
			t.Error(got)
		}
		if got := it.publishWith("Bearer " + otherToken); got != 200 || !strings.Contains(it.log.String(), `"event":"reload_refused","what":"token"`) {
			t.Error(got, it.log.String())
		}
		change(token)
		eventually(t, "the token is read", func() bool { return it.publishWith("Bearer "+token) == 200 })
		if strings.Contains(it.log.String(), token) {
			t.Error("the log has the token")
		}
	}
}

// A flag that says who may call is not empty: that of a variable that is not set would let all call.
func TestEmptyFlagsOfAccess(t *testing.T) {
	files := []string{"--schema", "s", "--policies", "p", "--entities", "e", "--admin", "unix:a"}
	for _, name := range restricting {
		if _, err := parseConfig(append(files, "--"+name, "")); err == nil || !strings.Contains(err.Error(), "--"+name+" is empty") {
			t.Error(name, err)
		}
		if _, err := parseConfig(append(files, "--config", configFile(t, `{"`+name+`": ""}`))); err == nil || !strings.Contains(err.Error(), "--"+name+" is empty") {
			t.Error(name, err)
		}
	}
}

// A file that all may read, and a token that can be guessed, are refused at the start.
func TestTokensThatAreRefused(t *testing.T) {
	_, files := copied(t, "notes")
	for wanted, path := range map[string]string{
		"all users may open it":                                              tokenFile(t, token, 0o644),
		"all users may open it: chmod o= ":                                   tokenFile(t, token, 0o602),
		"a token has 16 to 4096 visible characters of ASCII, without spaces": tokenFile(t, token[:15], 0o600),
		"a token has 16 to 4096 visible characters":                          tokenFile(t, token+" "+token, 0o600),
		"a token has 16 to 4096 visible":                                     tokenFile(t, strings.Repeat("x", 4097), 0o600),
		"a token has 16 to 4096":                                             tokenFile(t, "\n", 0o600),
		"a token has 16 to":                                                  tokenFile(t, token+"\xc3\xa9", 0o600),
		"no such file":                                                       "/none/token",
	} {
		said, status := ran(t, append(files, "--listen", "127.0.0.1:0", "--admin", "localhost:0", "--admin-token", path)...)
		if status != statusFailed || !strings.Contains(said, "--admin-token: ") || !strings.Contains(said, wanted) {
			t.Error(wanted, status, said)
		}
	}
}

// over makes a call over a socket of the file system.
func over(t *testing.T, socket, method, path, body string) int {
	t.Helper()
	client := clientOf(socket)
	defer client.CloseIdleConnections()
	request, err := http.NewRequest(method, "http://agent"+path, strings.NewReader(body))
	if err != nil {
		t.Fatal(err)
	}
	answer, err := client.Do(request)
	if err != nil {
		t.Fatal(err)
	}
	_ = answer.Body.Close()
	return answer.StatusCode
}

// At a socket of the file system the users alone may publish that are named.
func TestTheUsersOfTheSocket(t *testing.T) {
	own, other := strconv.Itoa(os.Getuid()), strconv.Itoa(os.Getuid()+12345)
	for users, wanted := range map[string]int{own: 200, other: 403, other + "," + own: 200, "": 200} {
		folder, files := copied(t, "notes")
		socket := filepath.Join(folder, "admin")
		words := append(files, "--admin", "unix:"+socket)
		if users != "" {
			words = append(words, "--admin-users", users)
		}
		started(t, filepath.Join(folder, "socket"), words...)
		if got := over(t, socket, "PUT", "/v1/policies", permitAll); got != wanted {
			t.Error(users, got)
		}
		if got := over(t, socket, "GET", "/v1/version", ""); got != wanted {
			t.Error(users, got)
		}
	}
	if users, err := usersOf("root,7"); err != nil || !users[0] || !users[7] || len(users) != 2 {
		t.Error(users, err)
	}
}

// The mode and the group of a socket are those that are given, whatever the umask is.
func TestModesAndGroupsOfSockets(t *testing.T) {
	defer syscall.Umask(syscall.Umask(0o077))
	group := os.Getgid()
	if os.Getuid() == 0 {
		group = 12345
	}
	for _, one := range []struct {
		name, mode, group string
		wanted            os.FileMode
	}{{"listen", "0666", "", 0o666}, {"listen", "600", "", 0o600}, {"listen", "", fmt.Sprint(group), 0o660}, {"listen", "", "", 0o700},
		{"admin", "", "", 0o600}, {"admin", "0640", "", 0o640}, {"admin", "", fmt.Sprint(group), 0o660}, {"admin", "0620", fmt.Sprint(group), 0o620}} {
		folder, files := copied(t, "notes")
		sockets := map[string]string{"listen": filepath.Join(folder, "socket"), "admin": filepath.Join(folder, "admin")}
		words := append(files, "--admin", "unix:"+sockets["admin"], "--"+one.name+"-mode", one.mode, "--"+one.name+"-group", one.group)
		started(t, sockets["listen"], words...)
		found, err := os.Stat(sockets[one.name])
		if err != nil || found.Mode().Perm() != one.wanted {
			t.Error(one, found, err)
			continue
		}
		if owner := found.Sys().(*syscall.Stat_t).Gid; one.group != "" && int(owner) != group || one.group == "" && int(owner) != os.Getgid() {
			t.Error(one, owner)
		}
	}
	folder, files := copied(t, "notes")
	said, status := ran(t, append(files, "--listen", "unix:"+folder+"/socket", "--listen-group", "nobody-is-called-so")...)
	if status != statusFailed || !strings.Contains(said, `there is no group "nobody-is-called-so"`) {
		t.Error(status, said)
	}
}
