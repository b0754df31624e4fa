package main

import (
	"bytes"
	"fmt"
	"net"
	"runtime"
	"strings"
	"testing"
	"time"
)

// Without a flag the call is on the listener for publishing alone.
func TestValidatingIsPrivate(t *testing.T) {
	it := serveExample(t, "notes")
	if got := it.call("POST", "/v1/validate", "", permitAll); got.status != 404 {
		t.Error(got)
	}
	if got := it.call("POST", "/v1/validate", "", permitAll, it.admin); got.status != 200 {
		t.Error(got)
	}
	if got := it.call("GET", "/v1/validate", "", "", it.admin); got.status != 405 || got.header.Get("Allow") != "POST" {
		t.Error(got)
	}
}

// wideFiles has as many policies as actions. Each policy has a fault in each environment but one.
func wideFiles(count int) string {
	var actions strings.Builder
	for at := 0; at < count; at++ {
		fmt.Fprintf(&actions, `,"a%d":{"appliesTo":{"principalTypes":["U"],"resourceTypes":["U"],"context":{"type":"Record","attributes":{"x%d":{"type":"Long"}}}}}`, at, at)
	}
	policies := strings.Repeat("permit(principal,action,resource) when { context.x1 > 1 };", count)
	return fmt.Sprintf(`{"schema":{"":{"entityTypes":{"U":{}},"actions":{%s}}},"policies":"%s","links":[]}`, actions.String()[1:], policies)
}

// ofSchema gives files to validate with members of a schema, and no policies.
func ofSchema(members string) string {
	return `{"policies":"","links":[],"schema":{"":{` + members + `}}}`
}

// A report that could be too large is not begun.
func TestReportsAreBounded(t *testing.T) {
	it := serveExample(t, "notes", "--public-validate", "--max-report", "200000")
	admin := func(body string) reply { return it.call("POST", "/v1/validate", "application/json", body, it.admin) }
	if got := admin(wideFiles(25)); got.status != 422 || strings.Count(got.body, "\n") != 25*24+1 {
		t.Error(got)
	}
	began := time.Now()
	if got := admin(wideFiles(1000)); got.status != 413 || !strings.Contains(got.body, "--max-report") {
		t.Error(got.status, len(got.body))
	}
	if took := time.Since(began); took > 2*time.Second {
		t.Error(took)
	}
	// Also where the schema is that of the agent, where names are long, and where the ids of policies are.
	policies := strings.Repeat(permitAll, 1000)
	long := strings.Replace(wideFiles(2), `"U":{}`, fmt.Sprintf(`"%s":{}`, strings.Repeat("U", 40000)), 1)
	long = strings.ReplaceAll(long, `["U"]`, fmt.Sprintf(`["%s"]`, strings.Repeat("U", 40000)))
	for _, body := range []string{fmt.Sprintf(`{"policies":%q}`, policies), long,
		fmt.Sprintf(`{"policies":%q}`, `@id("`+strings.Repeat("i", 80000)+`")`+permitAll[strings.Index(permitAll, "permit"):])} {
		if got := admin(body); got.status != 413 {
			t.Error(got.status, len(got.body))
		}
	}
	// Environments take memory, too, also where there are no policies.
	var types []string
	for at := 0; at < 501; at++ {
		types = append(types, fmt.Sprintf(`"T%d"`, at))
	}
	list := strings.Join(types, ",")
	environments := ofSchema(`"entityTypes":{` + strings.ReplaceAll(list, ",", ":{},") + `:{}},"actions":{"a":{"appliesTo":{"principalTypes":[` +
		list + `],"resourceTypes":[` + list + `]}}}`)
	if got := admin(environments); got.status != 413 {
		t.Error(got)
	}
	// A key that is repeated is counted each time.
	twice := strings.Replace(wideFiles(2), `"principalTypes"`, `"principalTypes":[`+strings.Repeat(`"U",`, 2000)+`"U"],"principalTypes"`, 1)
	if got := admin(twice); got.status != 413 {
		t.Error(got)
	}
	// A schema of the client is not for all.
	if got := it.call("POST", "/v1/validate", "application/json", wideFiles(2)); got.status != 403 {
		t.Error(got)
	}
	if got := it.call("POST", "/v1/validate", "application/json", `{"policies":""}`); got.status != 200 {
		t.Error(got)
	}
}

// Bodies that wait for their turn are not read.
func TestWaitingBodiesTakeNoMemory(t *testing.T) {
	it := serveExample(t, "notes")
	it.validating <- struct{}{}
	body := bytes.Repeat([]byte("/"), 1<<20)
	head := []byte(fmt.Sprintf("POST /v1/validate HTTP/1.1\r\nHost: agent\r\nContent-Length: %d\r\n\r\n", len(body)))
	var before, after runtime.MemStats
	runtime.GC()
	runtime.ReadMemStats(&before)
	for at := 0; at < 50; at++ {
		connection, err := net.Dial("tcp", it.admin)
		if err != nil {
			t.Fatal(err)
		}
		defer connection.Close()
		_ = connection.(*net.TCPConn).SetNoDelay(true)
		go func() {
			_, _ = connection.Write(head)
			_, _ = connection.Write(body)
		}()
	}
	time.Sleep(time.Second)
	runtime.GC()
	runtime.ReadMemStats(&after)
	if grown := int64(after.HeapAlloc) - int64(before.HeapAlloc); grown > 16<<20 {
		t.Error(grown>>20, "MB")
	}
	<-it.validating
}

// A client that sends slowly, reads slowly or is gone gives up its turn.
func TestSilentClientsLoseTheirTurn(t *testing.T) {
	it := serveExample(t, "notes")
	it.limits.turn = 300 * time.Millisecond
	connection, err := net.Dial("tcp", it.admin)
	if err != nil {
		t.Fatal(err)
	}
	defer connection.Close()
	_, _ = connection.Write([]byte("POST /v1/validate HTTP/1.1\r\nHost: agent\r\nContent-Length: 100\r\n\r\npermit"))
	time.Sleep(50 * time.Millisecond)
	began := time.Now()
	if got := it.call("POST", "/v1/validate", "", permitAll, it.admin); got.status != 200 || time.Since(began) > 5*time.Second {
		t.Error(got, time.Since(began))
	}
	_ = connection.SetReadDeadline(time.Now().Add(5 * time.Second))
	room := make([]byte, 64)
	if count, _ := connection.Read(room); !strings.HasPrefix(string(room[:count]), "HTTP/1.1 408 ") {
		t.Errorf("%q", room[:count])
	}
}
