package main

// Addresses: HOST:PORT, or unix:PATH for a socket of the file system.

import (
	"errors"
	"fmt"
	"net"
	"os"
	"os/user"
	"strconv"
	"strings"
	"syscall"
	"time"
)

const unixPrefix = "unix:"

// checkAddress finds what is wrong with an address, without listening there.
func checkAddress(address string) error {
	if path := strings.TrimPrefix(address, unixPrefix); path != address {
		if path == "" {
			return errors.New("an address is HOST:PORT or unix:PATH")
		}
		return nil
	}
	if _, _, err := net.SplitHostPort(address); err != nil {
		return errors.New("an address is HOST:PORT or unix:PATH")
	}
	return nil
}

// An access says who may connect to a socket of the file system. A mode of 0 is that of the process, and an empty group that, too.
type access struct {
	mode  os.FileMode
	group string
}

// The modes of the sockets of --admin, and of one with a group.
const (
	privateMode os.FileMode = 0o600
	groupMode   os.FileMode = 0o660
)

// accessOf gives the access that a mode, in octal digits, and a group say, and the default mode where there are neither.
func accessOf(mode, group string, byDefault os.FileMode) (access, error) {
	it := access{byDefault, group}
	if group != "" {
		it.mode = groupMode
	}
	if mode != "" {
		bits, err := strconv.ParseUint(mode, 8, 32)
		if err != nil || bits == 0 || bits > 0o777 {
			return it, errors.New("a mode has octal digits, for example 0660")
		}
		it.mode = os.FileMode(bits)
	}
	return it, nil
}

// listen listens at an address. Only those may connect to a socket of the file system whom the access names.
func listen(address string, allowed access) (net.Listener, error) {
	path := strings.TrimPrefix(address, unixPrefix)
	if path == address {
		return net.Listen("tcp", address)
	}
	if err := removeStale(path); err != nil {
		return nil, err
	}
	if allowed == (access{}) {
		return net.Listen("unix", path)
	}
	// Until the group and the mode are set, only the user of the process may connect.
	defer syscall.Umask(syscall.Umask(0o177))
	listener, err := net.Listen("unix", path)
	if err != nil {
		return nil, err
	}
	if err := allowed.set(path); err != nil {
		_ = listener.Close()
		return nil, err
	}
	return listener, nil
}

// set sets the group and the mode of a socket.
func (a access) set(path string) error {
	if a.group != "" {
		id := a.group
		if found, err := user.LookupGroup(a.group); err == nil {
			id = found.Gid
		}
		number, err := strconv.Atoi(id)
		if err != nil {
			return fmt.Errorf("%s: there is no group %q", path, a.group)
		}
		if err := os.Chown(path, -1, number); err != nil {
			return err
		}
	}
	return os.Chmod(path, a.mode)
}

// removeStale removes a socket that a process left which was killed. A socket at which someone listens stays, and so does another file.
func removeStale(path string) error {
	found, err := os.Lstat(path)
	if errors.Is(err, os.ErrNotExist) {
		return nil
	}
	if err != nil {
		return err
	}
	if found.Mode()&os.ModeSocket == 0 {
		return fmt.Errorf("%s is there, and is not a socket", path)
	}
	connection, err := net.DialTimeout("unix", path, time.Second)
	if err == nil {
		_ = connection.Close()
		return fmt.Errorf("another process listens at %s", path)
	}
	if !errors.Is(err, syscall.ECONNREFUSED) {
		return err
	}
	return os.Remove(path)
}
