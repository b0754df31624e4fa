package main

// Connections: at most so many are open. Where all are taken, the one that has made no progress for longest is closed for a new one. So
// clients that open connections and do nothing, or next to nothing, keep nobody out.
//
// The server gets a connection when its first byte has arrived, and its times begin then. Clients open connections before they need them,
// and one that was closed meanwhile would fail their first request.

import (
	"context"
	"net"
	"net/http"
	"sync"
	"sync/atomic"
	"time"
)

// The answer to a connection for which there is no place.
const noPlace = "HTTP/1.1 503 Service Unavailable\r\nContent-Type: application/json\r\nContent-Length: 34\r\nRetry-After: 1\r\n" +
	"Connection: close\r\n\r\n{\"error\":\"too many connections\"}\r\n"

// connections is a listener that counts the connections that it accepts.
type connections struct {
	net.Listener
	limit      int
	idle       time.Duration // a connection may be silent for so long
	turnedAway *atomic.Uint64
	lock       sync.Mutex
	stalled    time.Duration // without progress for so long, a connection may be closed for a new one
	open       map[*connection]struct{}
	begin, end sync.Once
	begun      chan *connection // those whose first byte has arrived
	failed     chan error       // of the listener
	ended      chan struct{}    // closed with the listener
}

// connection is an open connection, with the time of its last progress in nanoseconds.
type connection struct {
	net.Conn
	of       *connections
	progress atomic.Int64
	isSilent atomic.Bool // whether its first byte has not arrived
	first    []byte      // what has arrived and was not read
}

func limited(listener net.Listener, limit int, idle time.Duration, turnedAway *atomic.Uint64) *connections {
	return &connections{Listener: listener, limit: limit, idle: idle, turnedAway: turnedAway, stalled: stalledAfter,
		open: map[*connection]struct{}{}, begun: make(chan *connection), failed: make(chan error), ended: make(chan struct{})}
}

// Accept gives the next connection whose first byte has arrived.
func (c *connections) Accept() (net.Conn, error) {
	c.begin.Do(func() { go c.acceptAll() })
	select {
	case it := <-c.begun:
		return it, nil
	case err := <-c.failed:
		return nil, err
	case <-c.ended:
		return nil, net.ErrClosed
	}
}

// Close ends the listener, and closes the connections whose first byte has not arrived.
func (c *connections) Close() error {
	c.end.Do(func() { close(c.ended) })
	err := c.Listener.Close()
	c.lock.Lock()
	defer c.lock.Unlock()
	for it := range c.open {
		if it.isSilent.Load() {
			_ = it.Conn.Close()
		}
	}
	return err
}

// await hands a connection to the server when its first byte has arrived.
func (c *connections) await(it *connection) {
	_ = it.Conn.SetReadDeadline(time.Now().Add(c.idle))
	first := make([]byte, 1)
	count, _ := it.Read(first)
	_ = it.Conn.SetReadDeadline(time.Time{})
	it.first = first[:count]
	it.isSilent.Store(false)
	if count > 0 {
		select {
		case c.begun <- it:
			return
		case <-c.ended:
		}
	}
	_ = it.Close()
}

// acceptAll accepts connections, for each of which there is a place, until the listener is closed.
func (c *connections) acceptAll() {
	for {
		accepted, err := c.Listener.Accept()
		if err != nil {
			select {
			case c.failed <- err:
				continue
			case <-c.ended:
				return
			}
		}
		it := &connection{Conn: accepted, of: c}
		it.progress.Store(time.Now().UnixNano())
		it.isSilent.Store(true)
		if c.enter(it) {
			go c.await(it)
			continue
		}
		c.turnedAway.Add(1)
		_ = accepted.SetWriteDeadline(time.Now().Add(10 * time.Millisecond))
		_, _ = accepted.Write([]byte(noPlace))
		_ = accepted.Close()
	}
}

// enter finds a place for a connection. It is false where there is none.
func (c *connections) enter(it *connection) bool {
	c.lock.Lock()
	var stalled *connection
	if len(c.open) >= c.limit {
		stalled = c.longestStalled()
		if stalled == nil {
			c.lock.Unlock()
			return false
		}
		delete(c.open, stalled)
	}
	c.open[it] = struct{}{}
	c.lock.Unlock()
	if stalled != nil {
		c.turnedAway.Add(1)
		_ = stalled.Conn.Close()
	}
	return true
}

// longestStalled gives the connection without progress for longest, where that is long enough. The lock is held.
func (c *connections) longestStalled() *connection {
	var found *connection
	least := time.Now().Add(-c.stalled).UnixNano()
	for it := range c.open {
		if at := it.progress.Load(); at < least {
			found, least = it, at
		}
	}
	return found
}

// count gives the number of open connections.
func (c *connections) count() int {
	c.lock.Lock()
	defer c.lock.Unlock()
	return len(c.open)
}

// Read reads, which is progress where something has arrived.
func (c *connection) Read(to []byte) (int, error) {
	if len(c.first) > 0 {
		count := copy(to, c.first)
		c.first = c.first[count:]
		return count, nil
	}
	count, err := c.Conn.Read(to)
	if count > 0 {
		c.progress.Store(time.Now().UnixNano())
	}
	return count, err
}

// Write writes, which is progress when it ends.
func (c *connection) Write(from []byte) (int, error) {
	count, err := c.Conn.Write(from)
	if count > 0 {
		c.progress.Store(time.Now().UnixNano())
	}
	return count, err
}

// CloseWrite ends the answer, so that a client that still sends reads it before it sees the end.
func (c *connection) CloseWrite() error {
	if it, isOne := c.Conn.(interface{ CloseWrite() error }); isOne {
		return it.CloseWrite()
	}
	return nil
}

// Close closes the connection, and gives its place to another.
func (c *connection) Close() error {
	c.of.lock.Lock()
	delete(c.of.open, c)
	c.of.lock.Unlock()
	return c.Conn.Close()
}

// connectionKey is the key of the connection of a request in its context.
type connectionKey struct{}

func withConnection(parent context.Context, connection net.Conn) context.Context {
	return context.WithValue(parent, connectionKey{}, connection)
}

// setReadDeadline has reading of the body of a request fail after a time; a zero time is none. The server sets it anew for the next request.
func setReadDeadline(r *http.Request, at time.Time) {
	if connection, isOne := r.Context().Value(connectionKey{}).(net.Conn); isOne {
		_ = connection.SetReadDeadline(at)
	}
}

// setWriteDeadline has writing of the answer to a request fail after a time. The server sets it anew for the next request.
func setWriteDeadline(r *http.Request, at time.Time) {
	if connection, isOne := r.Context().Value(connectionKey{}).(net.Conn); isOne {
		_ = connection.SetWriteDeadline(at)
	}
}
