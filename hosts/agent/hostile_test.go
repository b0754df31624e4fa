package main

import (
	"bufio"
	"errors"
	"fmt"
	"io"
	"net"
	"net/http"
	"strings"
	"sync"
	"syscall"
	"testing"
	"time"

	"bobbinjade"
)

// others checks that other clients get their answers meanwhile.
func (s *served) others(count int) {
	s.t.Helper()
	for at := 0; at < count; at++ {
		if got := s.ask(line("ann", "write")); got.status != 200 || got.body != allowedAnswer {
			s.t.Error(got)
		}
	}
}

// streamHead is the head of a request whose body has no length.
const streamHead = "POST /v1/authorize HTTP/1.1\r\nHost: a\r\nContent-Type: %s\r\nTransfer-Encoding: chunked\r\n\r\n"

// begun writes the head of a request without a length to a connection.
func (s *served) begun(mediaType string) net.Conn {
	s.t.Helper()
	connection := s.dial()
	_ = connection.SetDeadline(time.Now().Add(30 * time.Second))
	fmt.Fprintf(connection, streamHead, mediaType)
	return connection
}

// chunk writes a chunk of a body.
func chunk(connection net.Conn, text string) error {
	_, err := fmt.Fprintf(connection, "%x\r\n%s\r\n", len(text), text)
	return err
}

// status reads the status of an answer, or 0 where the connection was closed without one.
func status(connection net.Conn) int {
	answer, err := http.ReadResponse(bufio.NewReader(connection), nil)
	if err != nil {
		return 0
	}
	return answer.StatusCode
}

// flood writes chunks until the connection refuses them, and gives the bytes that it took.
func flood(connection net.Conn, text string) int {
	sent := 0
	for chunk(connection, text) == nil {
		sent += len(text)
	}
	return sent
}

func TestABodyThatNeverEnds(t *testing.T) {
	it := serveExample(t, "notes", "--max-line", "100000", "--max-body", "1000000")
	for _, mediaType := range []string{"application/json", "application/x-ndjson"} {
		connection := it.begun(mediaType)
		flooded := make(chan int)
		go func() { flooded <- flood(connection, strings.Repeat(" ", 5000)) }()
		it.others(20)
		if got := status(connection); got != 413 && got != 0 {
			t.Error(mediaType, got)
		}
		if sent := <-flooded; sent > 20_000_000 {
			t.Error(mediaType, sent, "bytes were taken")
		}
	}
	for _, reason := range []string{"too_large", "line_too_long"} {
		if got := it.metric(`failures_total{reason="` + reason + `"}`); got != "1" {
			t.Error(reason, got)
		}
	}
}

// After the first answer the status is 200, so the answer has no end: the client sees that lines have no decision.
func TestLinesThatNeverEndAreCutOff(t *testing.T) {
	it := serveExample(t, "notes", "--max-body", "1000000")
	connection := it.begun("application/x-ndjson")
	lines := strings.Repeat(line("ann", "write")+"\n", 50)
	go flood(connection, lines)
	answer, err := http.ReadResponse(bufio.NewReader(connection), nil)
	if err != nil || answer.StatusCode != 200 {
		t.Fatal(err, answer)
	}
	text, err := io.ReadAll(answer.Body)
	if err == nil {
		t.Error("the answer has an end")
	}
	count := strings.Count(string(text), allowedAnswer)
	if most := 1_000_000 / (len(line("ann", "write")) + 1); count == 0 || count > most {
		t.Error(count, most)
	}
	it.others(5)
}

func TestLimitsOfSizes(t *testing.T) {
	it := serveExample(t, "notes", "--max-line", "200", "--max-body", "1000", "--max-policies", "100", "--max-files", "300")
	padded := func(size int) string {
		text := line("ann", "write")
		return text + strings.Repeat(" ", size-len(text))
	}
	if got := it.ask(padded(200)); got.status != 200 || got.body != allowedAnswer {
		t.Error(got)
	}
	if got := it.ask(padded(201)); got.status != 413 || strings.Contains(got.body, "allow") {
		t.Error(got)
	}
	if got := it.askLines(padded(200) + "\n" + padded(200) + "\n"); got.status != 200 || got.body != allowedAnswer+allowedAnswer {
		t.Error(got)
	}
	if got := it.askLines(padded(100) + "\n" + padded(201) + "\n"); got.status != 413 || strings.Contains(got.body, "allow") {
		t.Error(got)
	}
	if got := it.askLines(strings.Repeat(padded(199)+"\n", 5)); got.status != 200 || got.body != strings.Repeat(allowedAnswer, 5) {
		t.Error(got)
	}
	if got := it.askLines(strings.Repeat(padded(199)+"\n", 5) + "\n"); got.status != 413 || strings.Contains(got.body, "allow") {
		t.Error(got)
	}
	long := strings.Repeat("//", 51)
	if got := it.call("POST", "/v1/validate", "", long, it.admin); got.status != 413 {
		t.Error(got)
	}
	if got := it.put("/v1/policies", strings.Repeat(long, 3)); got.status != 413 {
		t.Error(got)
	}
	if got := it.put("/v1/policies", long); got.status != 200 {
		t.Error(got)
	}
}

// A length that is too large is refused before the body has arrived.
func TestALengthThatIsTooLarge(t *testing.T) {
	it := serveExample(t, "notes")
	for _, mediaType := range []string{"application/json", "application/x-ndjson"} {
		connection := it.dial()
		_ = connection.SetDeadline(time.Now().Add(20 * time.Second))
		fmt.Fprintf(connection, "POST /v1/authorize HTTP/1.1\r\nHost: a\r\nContent-Type: %s\r\nContent-Length: 100000000\r\n\r\n", mediaType)
		if got := status(connection); got != 413 {
			t.Error(mediaType, got)
		}
	}
}

func TestALargeHeader(t *testing.T) {
	it := serveExample(t, "notes")
	connection := it.dial()
	fmt.Fprintf(connection, "POST /v1/authorize HTTP/1.1\r\nHost: a\r\nX: %s\r\n\r\n", strings.Repeat("x", 40_000))
	if got := status(connection); got != 431 && got != 0 {
		t.Error(got)
	}
	it.others(5)
}

// A client that sends a body byte by byte is cut off when its time is over.
func TestASlowWriter(t *testing.T) {
	it := serveExample(t, "notes", "--max-time", "3s")
	began := time.Now()
	connection := it.begun("application/json")
	slow := make(chan struct{})
	go func() {
		defer close(slow)
		for chunk(connection, " ") == nil {
			time.Sleep(20 * time.Millisecond)
		}
	}()
	it.others(50)
	if got := status(connection); got != 408 && got != 0 {
		t.Error(got)
	}
	<-slow
	if took := time.Since(began); took < 2900*time.Millisecond || took > 20*time.Second {
		t.Error(took)
	}
}

// Clients open connections before they need them: one that was silent for longer than a header may take is answered.
func TestAConnectionThatIsOpenedEarly(t *testing.T) {
	t.Parallel()
	it := serveExample(t, "notes")
	var all []net.Conn
	for at := 0; at < 20; at++ {
		all = append(all, it.dial())
	}
	time.Sleep(headerTime + time.Second)
	for _, connection := range all {
		_ = connection.SetDeadline(time.Now().Add(20 * time.Second))
		fmt.Fprintf(connection, "POST /v1/authorize HTTP/1.1\r\nHost: a\r\nContent-Length: %d\r\n\r\n%s", len(line("ann", "write")), line("ann", "write"))
		if got := status(connection); got != 200 {
			t.Error(got)
		}
	}
}

// Connections that are silent end with --max-idle, and at once where the agent ends.
func TestConnectionsThatStaySilent(t *testing.T) {
	it := serveExample(t, "notes", "--max-idle", "300ms")
	connection := it.dial()
	_ = connection.SetReadDeadline(time.Now().Add(20 * time.Second))
	if _, err := connection.Read(make([]byte, 1)); !errors.Is(err, io.EOF) {
		t.Error(err)
	}
	other := serveExample(t, "notes")
	connection = other.dial()
	_ = connection.SetReadDeadline(time.Now().Add(20 * time.Second))
	eventually(t, "the connection is there", func() bool { return other.public.count() > 0 })
	began := time.Now()
	other.ends <- struct{}{}
	isClean := <-other.done
	if took := time.Since(began); !isClean || took > 3*time.Second {
		t.Error(isClean, took)
	}
	other.done <- isClean
	if _, err := connection.Read(make([]byte, 1)); err == nil {
		t.Error("a silent connection stays")
	}
}

// A client that sends the header byte by byte is cut off after headerTime.
func TestASlowHeader(t *testing.T) {
	t.Parallel()
	it := serveExample(t, "notes")
	connection := it.dial()
	began := time.Now()
	for text := "POST /v1/authorize HTTP/1.1\r\nX: "; ; text = "x" {
		if _, err := connection.Write([]byte(text)); err != nil {
			break
		}
		time.Sleep(20 * time.Millisecond)
	}
	if took := time.Since(began); took < headerTime-time.Second || took > headerTime+15*time.Second {
		t.Error(took)
	}
	it.others(5)
}

// A client that sends lines and does not read the answers is cut off when its time is over.
func TestASlowReader(t *testing.T) {
	it := serveExample(t, "notes", "--max-time", "3s")
	connection := it.begun("application/x-ndjson")
	flooded := make(chan int)
	go func() { flooded <- flood(connection, strings.Repeat(line("ann", "write")+"\n", 100)) }()
	began := time.Now()
	it.others(50)
	sent := <-flooded
	if took := time.Since(began); took > 20*time.Second {
		t.Error(took, sent)
	}
	it.others(5)
}

// askInTurn makes five requests over a connection. One in two is denied.
func askInTurn(t *testing.T, at int, connection net.Conn) {
	reader := bufio.NewReader(connection)
	for round := 0; round < 5; round++ {
		text, wanted := line("ann", "write"), allowedAnswer
		if (at+round)%2 == 0 {
			text, wanted = line("carol", "read"), deniedAnswer
		}
		fmt.Fprintf(connection, "POST /v1/authorize HTTP/1.1\r\nHost: a\r\nContent-Type: application/json\r\nContent-Length: %d\r\n\r\n%s",
			len(text), text)
		answer, err := http.ReadResponse(reader, nil)
		if err != nil {
			t.Error(err)
			return
		}
		body, err := io.ReadAll(answer.Body)
		if err != nil || answer.StatusCode != 200 || string(body) != wanted {
			t.Error(err, answer.StatusCode, string(body))
		}
	}
}

func TestAThousandConnections(t *testing.T) {
	const count = 1000
	var limit syscall.Rlimit
	if err := syscall.Getrlimit(syscall.RLIMIT_NOFILE, &limit); err != nil || limit.Cur < 2*count+100 {
		t.Skip("too few open files are allowed: ", limit.Cur, err)
	}
	it := serveExample(t, "notes")
	var all [count]net.Conn
	for at := range all {
		all[at] = it.dial()
		_ = all[at].SetDeadline(time.Now().Add(time.Minute))
	}
	eventually(t, "all connections are open", func() bool { return it.public.count() >= count })
	var asking sync.WaitGroup
	for at, connection := range all {
		asking.Add(1)
		go func(at int, connection net.Conn) {
			defer asking.Done()
			askInTurn(t, at, connection)
		}(at, connection)
	}
	asking.Wait()
	if got := it.metric(`decisions_total{decision="allow"}`); got != "2500" {
		t.Error(got)
	}
	if got := it.metric(`decisions_total{decision="deny"}`); got != "2500" {
		t.Error(got)
	}
}

// Where all connections are taken, a new one is turned away at first, and later takes the place of the one that waits longest.
func TestConnectionsThatDoNothing(t *testing.T) {
	it := serveExample(t, "notes", "--max-connections", "8")
	stalled := func(after time.Duration) {
		it.public.lock.Lock()
		defer it.public.lock.Unlock()
		it.public.stalled = after
	}
	stalled(time.Hour)
	var idle []net.Conn
	for at := 0; at < 8; at++ {
		idle = append(idle, it.dial())
	}
	eventually(t, "all places are taken", func() bool { return it.public.count() == 8 })
	if got := status(it.dial()); got != 503 && got != 0 {
		t.Error(got)
	}
	stalled(0)
	it.others(3)
	closed := 0
	for _, connection := range idle {
		_ = connection.SetReadDeadline(time.Now().Add(50 * time.Millisecond))
		_, err := connection.Read(make([]byte, 1))
		var late net.Error
		if !errors.As(err, &late) || !late.Timeout() {
			closed++
		}
	}
	if closed != 1 || it.public.count() > 8 {
		t.Error(closed, it.public.count())
	}
	if got := it.metrics.turnedAway.Load(); got != 2 {
		t.Error(got)
	}
}

// Whatever fails, the status is not 200, and the body has no decision.
func TestNoDecisionOnFailure(t *testing.T) {
	it := serveExample(t, "notes")
	ann := line("ann", "write")
	for name, got := range map[string]reply{
		"no body": it.ask(""), "no JSON": it.ask("{"), "another action": it.ask(line("ann", "print")), "two requests": it.ask(ann + ann),
		"another type": it.call("POST", "/v1/authorize", "text/plain", ann), "another method": it.call("PUT", "/v1/authorize", "", ann),
		"another path": it.call("POST", "/v1/authorise", "", ann), "too much": it.ask(strings.Repeat(" ", 1<<20) + ann),
		"a longer path": it.call("POST", "/v1/authorize/", "", ann), "an unknown key": it.ask(strings.Replace(ann, "{", `{"a":1,`, 1)),
	} {
		if got.status < 400 || strings.Contains(got.body, "decision") {
			t.Error(name, got)
		}
	}
	// An engine that was closed answers no request.
	_ = it.store.current.Load().engine.Close()
	for name, got := range map[string]reply{"one": it.ask(ann), "lines": it.askLines(ann), "a stream": it.askStream(ann)} {
		if got.status != 500 || strings.Contains(got.body, "decision") {
			t.Error(name, got)
		}
	}
}

// A body that ends before its length is no request, and half a line is not answered.
func TestBodiesThatBreakOff(t *testing.T) {
	it := serveExample(t, "notes")
	for _, mediaType := range []string{"application/json", "application/x-ndjson"} {
		connection := it.dial()
		fmt.Fprintf(connection, "POST /v1/authorize HTTP/1.1\r\nHost: a\r\nContent-Type: %s\r\nContent-Length: 500\r\n\r\n%s",
			mediaType, line("ann", "write"))
		_ = connection.(*net.TCPConn).CloseWrite()
		if got := status(connection); got != 400 && got != 0 {
			t.Error(mediaType, got)
		}
	}
	stream := it.begun("application/x-ndjson")
	_ = chunk(stream, line("ann", "write")+"\n"+line("ann", "write"))
	_ = stream.(*net.TCPConn).CloseWrite()
	answer, err := http.ReadResponse(bufio.NewReader(stream), nil)
	if err != nil || answer.StatusCode != 200 {
		t.Fatal(err)
	}
	if text, err := io.ReadAll(answer.Body); err == nil || string(text) != allowedAnswer {
		t.Error(string(text), err)
	}
	if got := it.metric(`decisions_total{decision="allow"}`); got != "1" {
		t.Error(got)
	}
}

// An answer line of another form than those that are known is not passed on.
func TestAnAnswerOfAnotherForm(t *testing.T) {
	it := serveExample(t, "notes")
	for _, text := range []string{"", "x", `{"decision":"Allow","determining":[],"erring":[]}`} {
		it.one = func(_ *bobbinjade.Engine, to, _ []byte) ([]byte, error) { return append(to, text...), nil }
		recorder := &recorded{header: http.Header{}}
		it.answerOne(recorder, nil, takeRoom())
		if recorder.status != 500 || strings.Contains(recorder.body, "decision") {
			t.Error(text, recorder)
		}
		if got := it.why(line("ann", "write")); got.status != 500 || strings.Contains(got.body, "decision") {
			t.Error(text, got)
		}
	}
}

func TestFailuresOfTheLibrary(t *testing.T) {
	it := serveExample(t, "notes")
	for _, one := range []struct {
		err    error
		status int
	}{{bobbinjade.ErrMemory, 503}, {&bobbinjade.LibraryError{Status: 4}, 500}, {bobbinjade.ErrClosed, 500}} {
		recorder := &recorded{header: http.Header{}}
		it.failEngine(recorder, one.err)
		if recorder.status != one.status || strings.Contains(recorder.body, "decision") {
			t.Error(one.err, recorder)
		}
	}
}

// recorded is an answer that is kept.
type recorded struct {
	header http.Header
	status int
	body   string
}

func (r *recorded) Header() http.Header { return r.header }

func (r *recorded) WriteHeader(status int) { r.status = status }

func (r *recorded) Write(text []byte) (int, error) {
	r.body += string(text)
	return len(text), nil
}

// While a validation has the only place, another waits for half the time of a request, and requests are answered.
func TestValidationsWait(t *testing.T) {
	it := serveExample(t, "notes", "--max-time", "3s")
	it.validating <- struct{}{}
	waiting := make(chan reply)
	go func() { waiting <- it.call("POST", "/v1/validate", "", permitAll, it.admin) }()
	it.others(10)
	if got := <-waiting; got.status != 503 || got.header.Get("Retry-After") == "" {
		t.Error(got)
	}
	<-it.validating
	if got := it.call("POST", "/v1/validate", "", permitAll, it.admin); got.status != 200 {
		t.Error(got)
	}
}

// A body that does not arrive in time is answered, and not cut off.
func TestSlowBodiesAreAnswered(t *testing.T) {
	it := serveExample(t, "notes", "--max-time", "400ms")
	answers := make(chan string)
	for at := 0; at < 16; at++ {
		connection := it.dial()
		go func() {
			_, _ = connection.Write([]byte("POST /v1/authorize HTTP/1.1\r\nHost: agent\r\nContent-Length: 100\r\n\r\n{"))
			_ = connection.SetReadDeadline(time.Now().Add(10 * time.Second))
			room := make([]byte, 64)
			count, _ := connection.Read(room)
			answers <- string(room[:count])
		}()
	}
	for at := 0; at < 16; at++ {
		if got := <-answers; !strings.HasPrefix(got, "HTTP/1.1 408 ") {
			t.Errorf("%q", got)
		}
	}
}
