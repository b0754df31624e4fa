package main

// The words of refused requests, and that they take no more than their share of time.

import (
	"errors"
	"fmt"
	"regexp"
	"strings"
	"sync"
	"testing"
	"time"

	"bobbinjade"
)

// placeOfLine is the place that the program names of a line.
var placeOfLine = regexp.MustCompile(`standard input: line \d+`)

// explainedByProgram gives what the program explains of a request line of an example.
func explainedByProgram(t *testing.T, name, request string, words ...string) string {
	t.Helper()
	folder, files := copied(t, name)
	_, said, _ := program(t, folder, request+"\n", append(append([]string{"authorize", "--explain-lines"}, words...), files...)...)
	return strings.TrimSpace(placeOfLine.ReplaceAllString(said, "request"))
}

// refusedRequests are requests of examples/notes that are refused, each for another reason.
var refusedRequests = []string{line("ann", "wite"), `{"principal":"User::\"ann\""}`, `not JSON`, strings.Replace(line("ann", "read"), "Notebook", "Book", 1),
	strings.TrimSuffix(line("ann", "read"), "}") + `,"context":{"a":1}}`, strings.TrimSuffix(line("ann", "read"), "}") + `,"\u0001\"<é":1}`}

// A refused request is answered with its number and the words of the program.
func TestWordsOfARefusedRequest(t *testing.T) {
	it := serveExample(t, "notes")
	for _, request := range refusedRequests {
		var got reply
		eventually(t, "there is time for words", func() bool { got = it.ask(request); return got.words != "" })
		if wanted := explainedByProgram(t, "notes", request); strings.TrimSpace(got.words) != wanted || got.status != 400 {
			t.Errorf("%q: %q instead of %q", request, got.words, wanted)
		}
		if lines := it.askLines(request); lines.status != 200 || lines.body != got.body {
			t.Error(lines, got)
		}
	}
	// A client that accepts text gets them as text, and a decision as it is.
	for request, wanted := range map[string]string{line("ann", "wite"): "error[510]: an action is not declared\n --> request\n", line("ann", "write"): allowedAnswer} {
		eventually(t, "there are words: "+wanted, func() bool {
			asked := it.request("POST", "http://"+it.address+"/v1/authorize", "", strings.NewReader(request))
			asked.Header.Set("Accept", "text/plain")
			return strings.HasPrefix(it.send(asked).body, wanted)
		})
	}
}

func TestWordsOfRequestsWithEntities(t *testing.T) {
	it := serveExample(t, "photos", "--entities-in-requests")
	for _, entities := range []string{`[{"uid":{"type":"Ghost","id":"g"}}]`, `{}`, `[` + annAlone + `,` + annAlone + `]`} {
		request := requestBringing(entities)
		wanted := explainedByProgram(t, "photos", request, "--entities-in-lines")
		// The library writes ": " after the name of a request, also where nothing is between that and the entry.
		eventually(t, "the words are "+wanted, func() bool {
			return strings.TrimSpace(strings.Replace(it.ask(request).words, "request: ,", "request,", 1)) == wanted
		})
	}
}

// With the flag, and where no time is left, a refused request is answered as a request line is.
func TestNoWords(t *testing.T) {
	it := serveExample(t, "notes", "--no-words")
	for _, request := range refusedRequests {
		if got, wanted := it.call("POST", "/v1/authorize", "", request), it.askLines(request).body; got.status != 400 || got.body != wanted {
			t.Error(got, wanted)
		}
	}
}

// Words take their share of time, whatever clients send, and nobody waits for them.
func TestWordsHaveAShareOfTime(t *testing.T) {
	made := 0
	it := phraser{phrase: func(*bobbinjade.Engine, []byte) (string, error) {
		made++
		time.Sleep(10 * time.Millisecond)
		return "words", nil
	}}
	began, asked := time.Now(), 0
	for ; time.Since(began) < 400*time.Millisecond; asked++ {
		if it.of(nil, nil) == "" {
			time.Sleep(10 * time.Microsecond)
		}
	}
	// 100 ms are saved, of which the last words may take more than is left.
	most := int((savedTime+time.Since(began)/partsOfTime)/(10*time.Millisecond)) + 1
	if made == 0 || made > most || asked <= made {
		t.Error(made, most, asked)
	}
	it.paid = time.Now().Add(-time.Hour)
	if it.of(nil, nil) != "words" || it.paid.Before(time.Now().Add(-partsOfTime*savedTime)) {
		t.Error("what is saved has no bound", it.paid)
	}
}

// While words are made, another refused request does not wait for them. Without words, since they failed, the number stays.
func TestNobodyWaitsForWords(t *testing.T) {
	begun, end := make(chan struct{}), make(chan struct{})
	it := phraser{phrase: func(*bobbinjade.Engine, []byte) (string, error) {
		close(begun)
		<-end
		return "words", errors.New("closed")
	}}
	ended := make(chan string)
	go func() { ended <- it.of(nil, nil) }()
	<-begun
	if it.of(nil, nil) != "" {
		t.Error("two at once")
	}
	close(end)
	if words := <-ended; words != "" || string(withWords([]byte(`{"refused":502}`), words)) != `{"refused":502}` {
		t.Error(words)
	}
}

// Clients whose requests are all refused do not take the processor away from others, and words come again afterwards.
func TestAFloodOfRefusedRequests(t *testing.T) {
	it := serveExample(t, "notes")
	var clients sync.WaitGroup
	counts := make([]int, 8)
	for at := range counts {
		clients.Add(1)
		go func(at int) {
			defer clients.Done()
			for turn := 0; turn < 300; turn++ {
				got := it.ask(fmt.Sprintf(`{"principal":"User::\"ann\"","action":"Action::\"%s\"","resource":"Notebook::\"plans\""}`, strings.Repeat("wrte", 20000)))
				if got.status != 400 || got.body != `{"refused":510}`+"\n" {
					t.Error(got.status, len(got.body))
				}
				if got.words != "" {
					counts[at]++
				}
			}
		}(at)
	}
	began := time.Now()
	clients.Wait()
	all := 0
	for _, count := range counts {
		all += count
	}
	t.Logf("%d of 2400 have words, in %v", all, time.Since(began))
	if all == 0 || all > 1200 {
		t.Error(all, "have words")
	}
	if got := it.metric(`refusals_total{number="510"}`); got != "2400" {
		t.Error(got)
	}
	eventually(t, "words come again", func() bool { return it.ask(line("ann", "wite")).words != "" })
}
