package main

// Who may call the listener of --admin: who has the token of a file, and at a socket of the file system the users that are named.

import (
	"crypto/sha256"
	"crypto/subtle"
	"fmt"
	"io"
	"net"
	"net/http"
	"os"
	"os/user"
	"strconv"
	"strings"
	"sync/atomic"
	"syscall"
)

const (
	// A token has at least so many bytes, and at most.
	leastToken = 16
	mostToken  = 4096
	// The bits of a mode that let all users read or write.
	modeOfOthers = 0o007
)

// A guard says who may call. The zero guard admits all that can connect.
type guard struct {
	token atomic.Pointer[[sha256.Size]byte] // the digest of the token; nil where none is needed
	users map[uint32]bool                   // nil where no users are named
}

// useToken reads a token, which callers need from then on.
func (g *guard) useToken(path string) error {
	token, err := readToken(path)
	if err != nil {
		return fmt.Errorf("--admin-token: %w", err)
	}
	sum := sha256.Sum256([]byte(token))
	g.token.Store(&sum)
	return nil
}

// readToken reads the token of a file, whose last line feed does not count.
func readToken(path string) (string, error) {
	file, err := os.Open(path)
	if err != nil {
		return "", err
	}
	defer file.Close()
	found, err := file.Stat()
	if err != nil {
		return "", err
	}
	if found.Mode().IsRegular() && found.Mode().Perm()&modeOfOthers != 0 {
		return "", fmt.Errorf("%s: all users may open it: chmod o= before", path)
	}
	content, err := io.ReadAll(io.LimitReader(file, mostToken+2))
	if err != nil {
		return "", err
	}
	token := strings.TrimSuffix(strings.TrimSuffix(string(content), "\n"), "\r")
	isOther := func(r rune) bool { return r <= ' ' || r > '~' }
	if len(token) < leastToken || len(token) > mostToken || strings.IndexFunc(token, isOther) >= 0 {
		return "", fmt.Errorf("%s: a token has %d to %d visible characters of ASCII, without spaces", path, leastToken, mostToken)
	}
	return token, nil
}

// usersOf gives the numbers of users, which are named or numbered, with commas between them; nil where the list is empty.
func usersOf(list string) (map[uint32]bool, error) {
	if list == "" {
		return nil, nil
	}
	users := map[uint32]bool{}
	for _, name := range strings.Split(list, ",") {
		id := name
		if found, err := user.Lookup(name); err == nil {
			id = found.Uid
		}
		number, err := strconv.ParseUint(id, 10, 32)
		if err != nil {
			return nil, fmt.Errorf("--admin-users: there is no user %q", name)
		}
		users[uint32(number)] = true
	}
	return users, nil
}

// admits says whether a call may go on. If not, it answers the call.
func (g *guard) admits(a *agent, w http.ResponseWriter, r *http.Request) bool {
	switch {
	case g.users != nil && !g.isUser(r):
		a.fail(w, http.StatusForbidden, "user", "this user may not call the listener of --admin")
	case !g.hasToken(r):
		w.Header().Set("WWW-Authenticate", "Bearer")
		a.fail(w, http.StatusUnauthorized, "token", "the header Authorization has the token of --admin-token: Bearer TOKEN")
	default:
		return true
	}
	return false
}

// hasToken says whether a call has the token, where one is needed. It takes as long for each other token.
func (g *guard) hasToken(r *http.Request) bool {
	wanted, values := g.token.Load(), r.Header["Authorization"]
	if wanted == nil {
		return true
	}
	if len(values) != 1 || len(values[0]) < len("Bearer ") || !strings.EqualFold(values[0][:len("Bearer ")], "Bearer ") {
		return false
	}
	sent := sha256.Sum256([]byte(values[0][len("Bearer "):]))
	return subtle.ConstantTimeCompare(sent[:], wanted[:]) == 1
}

// isUser says whether one of the named users has opened the connection of a call.
func (g *guard) isUser(r *http.Request) bool {
	it, isOne := r.Context().Value(connectionKey{}).(*connection)
	if !isOne {
		return false
	}
	peer, err := peerOf(it.Conn)
	return err == nil && g.users[peer]
}

// peerOf gives the user who has opened a connection of a socket of the file system.
func peerOf(of net.Conn) (uint32, error) {
	socket, isOne := of.(*net.UnixConn)
	if !isOne {
		return 0, syscall.ENOTSUP
	}
	raw, err := socket.SyscallConn()
	if err != nil {
		return 0, err
	}
	var peer *syscall.Ucred
	var found error
	err = raw.Control(func(at uintptr) {
		peer, found = syscall.GetsockoptUcred(int(at), syscall.SOL_SOCKET, syscall.SO_PEERCRED)
	})
	if err != nil || found != nil {
		return 0, syscall.ENOTCONN
	}
	return peer.Uid, nil
}
