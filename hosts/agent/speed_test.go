package main

import (
	"bytes"
	"net/http"
	"strings"
	"testing"
)

// discarded is an answer that is not kept, so that what is measured is the agent and not a client.
type discarded struct {
	header http.Header
	status int
}

func (d *discarded) Header() http.Header { return d.header }

func (d *discarded) WriteHeader(status int) { d.status = status }

func (d *discarded) Write(text []byte) (int, error) { return len(text), nil }

// repeatedBody is a body that can be read again.
type repeatedBody struct{ bytes.Reader }

func (*repeatedBody) Close() error { return nil }

// caller gives a function that makes one call of the agent, without a network.
func caller(t testing.TB, it *agent, mediaType, body string) func() int {
	text, reader := []byte(body), &repeatedBody{}
	request, err := http.NewRequest("POST", "http://agent/v1/authorize", nil)
	if err != nil {
		t.Fatal(err)
	}
	request.Header["Content-Type"] = []string{mediaType}
	request.Body, request.ContentLength = reader, int64(len(text))
	answer := &discarded{header: http.Header{}}
	return func() int {
		reader.Reset(text)
		answer.status = http.StatusOK
		it.servePublic(answer, request)
		return answer.status
	}
}

// The agent itself allocates nothing on the way of a single request, and only the text of the length on that of lines.
func TestAllocations(t *testing.T) {
	it := serveExample(t, "notes")
	for mediaType, most := range map[string]float64{"application/json": 0, "application/x-ndjson": 2} {
		call := caller(t, it.agent, mediaType, line("ann", "write"))
		if got := call(); got != 200 {
			t.Fatal(got)
		}
		if count := testing.AllocsPerRun(2000, func() { call() }); count > most && !isRaced {
			t.Error(mediaType, count, "allocations")
		}
	}
}

func BenchmarkOneRequest(b *testing.B) {
	it := serveExample(b, "notes")
	call := caller(b, it.agent, "application/json", line("ann", "write"))
	b.ReportAllocs()
	for at := 0; at < b.N; at++ {
		call()
	}
}

func BenchmarkAHundredLines(b *testing.B) {
	it := serveExample(b, "notes")
	call := caller(b, it.agent, "application/x-ndjson", strings.Repeat(line("ann", "write")+"\n", 100))
	b.ReportAllocs()
	for at := 0; at < b.N; at++ {
		call()
	}
}
