package main

// Servers: the listener for requests, and that for calls that publish where one is wanted.

import (
	"context"
	"log"
	"net"
	"net/http"
	"strings"
	"time"

	"bobbinjade"
)

// servers are the listeners of a process.
type servers struct {
	agent    *agent
	drain    time.Duration
	shutdown time.Duration
	running  []running
}

// running is a server with its listener.
type running struct {
	name     string
	server   *http.Server
	listener net.Listener
}

// listenAll listens at the addresses of the command line.
func listenAll(it *agent, settings *config) (*servers, error) {
	all := &servers{agent: it, drain: settings.drain, shutdown: settings.shutdown}
	listener, err := listen(settings.listen, settings.listenAccess)
	if err != nil {
		return nil, err
	}
	it.public = limited(listener, settings.limits.connections, settings.limits.idle, &it.metrics.turnedAway)
	all.add("requests", it.tls.over(it.public), http.HandlerFunc(it.servePublic), settings.limits.time, settings.limits.idle)
	if settings.admin == "" {
		return all, nil
	}
	if listener, err = listen(settings.admin, settings.adminAccess); err != nil {
		_ = it.public.Close()
		return nil, err
	}
	admin := limited(listener, adminConnections, settings.limits.idle, &it.metrics.turnedAway)
	all.add("admin", it.tls.over(admin), http.HandlerFunc(it.serveAdmin), settings.limits.adminTime, settings.limits.idle)
	return all, nil
}

// add adds a server.
func (s *servers) add(name string, listener net.Listener, handler http.Handler, most, idle time.Duration) {
	server := &http.Server{
		Handler: handler, ReadHeaderTimeout: headerTime, ReadTimeout: most, WriteTimeout: most + lateTime, IdleTimeout: idle,
		MaxHeaderBytes: headerSize, ErrorLog: log.New(s.agent.log, "", 0), ConnContext: withConnection,
	}
	s.running = append(s.running, running{name, server, listener})
}

// serve serves until something ends it. It is false where requests were cut off, or a listener failed.
func (s *servers) serve(hangups, ends <-chan struct{}) bool {
	failed := make(chan error, len(s.running))
	for _, it := range s.running {
		it := it
		s.agent.log.event("info", "listening", text("name", it.name), text("address", it.listener.Addr().String()))
		go func() { failed <- it.server.Serve(it.listener) }()
	}
	stopped := make(chan struct{})
	go s.agent.reloader.run(hangups, stopped)
	go s.agent.writeLogs(stopped)
	isClean := true
	select {
	case <-ends:
	case err := <-failed:
		s.agent.log.event("error", "listener", text("error", err.Error()))
		isClean = false
	}
	close(stopped)
	return s.stop(ends) && isClean
}

// stop answers requests until they are drained, then the running ones, and takes no others. A second signal ends the draining, and the next
// one or the end of the time cuts requests off.
func (s *servers) stop(ends <-chan struct{}) bool {
	s.agent.isStopping.Store(true)
	s.agent.log.event("info", "stopping")
	if s.drain > 0 {
		select {
		case <-ends:
		case <-time.After(s.drain):
		}
	}
	limit, cancel := context.WithTimeout(context.Background(), s.shutdown)
	defer cancel()
	go func() {
		select {
		case <-ends:
			cancel()
		case <-limit.Done():
		}
	}()
	isClean := true
	for _, it := range s.running {
		if err := it.server.Shutdown(limit); err != nil {
			isClean = false
			_ = it.server.Close()
		}
		// A server that has not begun to serve does not know its listener, whose socket would stay.
		_ = it.listener.Close()
	}
	if !isClean {
		s.agent.log.event("warning", "cut_off")
	}
	return isClean
}

// writeLogs writes what logs have collected: decisions ten times a second, and what was counted once a second.
func (a *agent) writeLogs(stopped <-chan struct{}) {
	counted := time.NewTicker(time.Second)
	defer counted.Stop()
	decisions := time.NewTicker(100 * time.Millisecond)
	defer decisions.Stop()
	for {
		select {
		case <-stopped:
			return
		case <-decisions.C:
			a.decisions.flush()
		case <-counted.C:
			a.decisions.reopenIfMoved()
			if err := a.decisions.lastFault(); err != nil {
				a.log.event("error", "decision_log", number("failures", a.decisions.failures()), text("error", err.Error()))
			}
			a.log.flush()
			if a.hasFreed.Swap(false) {
				trimEngine()
			}
		}
	}
}

// pathOf gives the path of a call as it was sent. One with an escape is none of those that are served: a proxy that filters paths, and does
// not decode them, would let it pass.
func pathOf(r *http.Request) string {
	return r.URL.EscapedPath()
}

// servePublic answers a call of the listener for requests.
func (a *agent) servePublic(w http.ResponseWriter, r *http.Request) {
	switch path := pathOf(r); {
	case path == "/v1/authorize":
		if r.Method != http.MethodPost {
			a.failMethod(w, http.MethodPost)
			return
		}
		if a.isEncoded(w, r) {
			return
		}
		a.authorize(w, r)
	case path == validatePath && a.isPublic && a.limits.validations > 0:
		a.serveValidate(w, r, false)
	case a.mapping != nil && (path == extAuthzPath || strings.HasPrefix(path, extAuthzPath+"/")):
		a.extAuthz(w, r)
	default:
		a.serveState(w, r)
	}
}

// The path of the call that validates.
const validatePath = "/v1/validate"

// serveValidate answers a call that validates.
func (a *agent) serveValidate(w http.ResponseWriter, r *http.Request, isAdmin bool) {
	if r.Method != http.MethodPost {
		a.failMethod(w, http.MethodPost)
		return
	}
	if a.isEncoded(w, r) {
		return
	}
	a.validate(w, r, isAdmin)
}

// isEncoded says whether a body has a Content-Encoding, which is then answered: no call decodes one.
func (a *agent) isEncoded(w http.ResponseWriter, r *http.Request) bool {
	for _, encoding := range r.Header["Content-Encoding"] {
		if encoding != "" && !strings.EqualFold(encoding, "identity") {
			a.fail(w, http.StatusUnsupportedMediaType, "encoding", "a body has no Content-Encoding here")
			return true
		}
	}
	return false
}

// serveAdmin answers a call of the listener for calls that publish.
func (a *agent) serveAdmin(w http.ResponseWriter, r *http.Request) {
	if !a.guard.admits(a, w, r) {
		return
	}
	path := pathOf(r)
	file, isOne := publishedPaths[path]
	isPatch := r.Method == http.MethodPatch && file == bobbinjade.Entities
	switch {
	case path == "/v1/entities" && (r.Method == http.MethodGet || r.Method == http.MethodHead):
		a.writeEntities(w)
	case a.profiles && strings.HasPrefix(path, profilesPath):
		writeProfile(w, r)
	case path == "/v1/reload":
		a.reload(w, r)
	case path == "/v1/why":
		a.serveWhy(w, r)
	case path == validatePath && a.limits.validations > 0:
		a.serveValidate(w, r, true)
	case !isOne:
		a.serveState(w, r)
	case r.Method != http.MethodPut && !isPatch:
		a.failMethod(w, methodsOf(file))
	case isOfBrowser(r):
		a.failBrowser(w)
	case a.isEncoded(w, r):
	case isPatch:
		a.patch(w, r)
	default:
		a.publish(w, r, file)
	}
}

// isOfBrowser says whether a page in a browser makes a call.
func isOfBrowser(r *http.Request) bool {
	return len(r.Header["Origin"]) > 0
}

// methodsOf gives the methods of the path of a file.
func methodsOf(file bobbinjade.File) string {
	if file == bobbinjade.Entities {
		return "GET, HEAD, PATCH, PUT"
	}
	return http.MethodPut
}

// serveState answers a call that says how the agent is, which both listeners have.
func (a *agent) serveState(w http.ResponseWriter, r *http.Request) {
	calls := map[string]func(http.ResponseWriter){
		"/healthz": a.healthz, "/readyz": a.readyz, "/metrics": a.writeMetrics, "/v1/version": a.writeVersion,
	}
	call, isOne := calls[pathOf(r)]
	switch {
	case !isOne:
		a.fail(w, http.StatusNotFound, "path", "there is no such path here")
	case r.Method != http.MethodGet && r.Method != http.MethodHead:
		a.failMethod(w, "GET, HEAD")
	default:
		call(w)
	}
}
