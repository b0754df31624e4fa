package main

import (
	"fmt"
	"strings"
	"sync"
	"testing"
)

// requestBringing makes the request for the beach with entities.
func requestBringing(entities string) string {
	return strings.TrimSuffix(beach, "}") + `,"entities":` + entities + `}`
}

func TestEntitiesInRequests(t *testing.T) {
	it := serveExample(t, "photos", "--entities-in-requests")
	it.isAnswered(friend)
	for _, step := range []struct {
		entities, wanted string
		status           int
	}{
		{`[` + annAlone + `]`, stranger, 200},
		{`[]`, friend, 200},
		{`[{"uid":` + beachUID + `,"attrs":{"owner":{"type":"User","id":"ann"},"private":true}}]`, `{"decision":"allow","determining":["owner"],"erring":[]}` + "\n", 200},
		{`[` + annAlone + `,` + annAlone + `]`, `{"refused":401}` + "\n", 400},
		{`{}`, `{"refused":502}` + "\n", 400},
		{`null`, `{"refused":502}` + "\n", 400},
		{`[{"uid":{"type":"Ghost","id":"g"}}]`, `{"refused":503}` + "\n", 400},
		{`[{"uid":{"type":"Action","id":"fly"}}]`, `{"refused":508}` + "\n", 400},
		{`[{"uid":{"type":"User","id":"\ud800"}}]`, `{"refused":501}` + "\n", 400},
		{`[` + annAlone + `],"more":1`, `{"refused":502}` + "\n", 400},
		{`[` + annAlone + `],"remove":[]`, `{"refused":502}` + "\n", 400},
	} {
		if got := it.ask(requestBringing(step.entities)); got.status != step.status || got.body != step.wanted {
			t.Error(step.entities, got)
		}
		// The next request does not see them.
		it.isAnswered(friend)
	}
	for request, wanted := range map[string]string{
		`{"entities":[]}`: `{"refused":502}`,
		`{"entities":[]`:  `{"refused":501}`,
		`"entities"`:      `{"refused":502}`,
		strings.TrimSuffix(beach, "}") + `,"context":{"entities":[]}}`: `{"refused":506}`,
	} {
		if got := it.ask(request); got.status != 400 || got.body != wanted+"\n" {
			t.Error(request, got)
		}
	}
	// An escape in a key is that of JSON.
	if got := it.ask(strings.Replace(requestBringing(`[`+annAlone+`]`), "entities", `entit\u0069es`, 1)); got.status != 200 || got.body != stranger {
		t.Error(got)
	}
	if got := it.metric("version"); got != "1" {
		t.Error(got)
	}
}

// The answers are those of the program, also where a request has line feeds, which lines have not.
func TestTheProgramAnswersRequestsWithEntities(t *testing.T) {
	it := serveExample(t, "photos", "--entities-in-requests")
	folder, files := copied(t, "photos")
	alone := requestBringing(`[` + annAlone + `]`)
	requests := []string{beach, alone, requestBringing(`[]`), requestBringing(`[],"entities":[` + annAlone + `]`), requestBringing(`[` + annAlone + `],"entities":[]`),
		requestBringing(`[` + annAlone + `],"context":{"entities":[]}`), requestBringing(`[`), requestBringing(`[]`) + "}", " " + alone + " ", "\r" + alone + "\r",
		strings.ReplaceAll(alone, `"entities"`, `"Entities"`), strings.ReplaceAll(alone, `"entities"`, `"\u0065ntities"`), "[" + alone + "]",
		strings.ReplaceAll(alone, "ann", "\xff"), strings.ReplaceAll(alone, "ann", "\x00"), alone + "\x00", "\ufeff" + alone, "\t", " ",
		requestBringing(`[{"uid":{"type":"Action","id":"view"}}]`), requestBringing(`[{"uid":{"type":"User","id":"ann"},"attrs":{"x":1}}]`)}
	output, _, _ := program(t, folder, strings.Join(requests, "\n")+"\n", append([]string{"authorize", "--quiet", "--entities-in-lines"}, files...)...)
	answers := strings.SplitAfter(strings.TrimSuffix(output, "\n"), "\n")
	if len(answers) != len(requests) {
		t.Fatal(output)
	}
	if got := it.askLines(strings.Join(requests, "\n")); got.body != output {
		t.Error(got)
	}
	for at, request := range requests {
		wanted := strings.TrimSuffix(answers[at], "\n") + "\n"
		// Between tokens a line feed is as good as none.
		for _, one := range []string{request, request + "\n", "\n" + request, strings.ReplaceAll(request, ",", "\n,\r\n")} {
			if got := it.ask(one); got.body != wanted {
				t.Errorf("%q %v %s", one, got, wanted)
			}
		}
	}
	// In a string it is refused, with entities and without.
	for _, one := range []string{strings.ReplaceAll(alone, "ann", "an\nn"), strings.ReplaceAll(beach, "ann", "an\nn"), "", "\n", "\n\n", "\r\n"} {
		if got := it.ask(one); got.body != `{"refused":501}`+"\n" || got.status != 400 {
			t.Errorf("%q %v", one, got)
		}
	}
}

func TestRequestsBringNoEntitiesWithoutTheFlag(t *testing.T) {
	it := serveExample(t, "photos")
	if got := it.ask(requestBringing(`[]`)); got.status != 400 || got.body != `{"refused":502}`+"\n" {
		t.Error(got)
	}
	if got := it.askLines(requestBringing(`[]`) + "\n" + beach); got.body != `{"refused":502}`+"\n"+friend {
		t.Error(got)
	}
}

func TestEntitiesInRequestLines(t *testing.T) {
	it := serveExample(t, "photos", "--entities-in-requests")
	alone := requestBringing(`[` + annAlone + `]`)
	lines := strings.Join([]string{beach, alone, beach, beach, alone, alone, "", `{"entities":`, requestBringing(`1`), beach}, "\n")
	answers := friend + stranger + friend + friend + stranger + stranger + `{"refused":501}` + "\n" + `{"refused":501}` + "\n" +
		`{"refused":502}` + "\n" + friend
	for _, end := range []string{"", "\n"} {
		if got := it.askLines(lines + end); got.status != 200 || got.body != answers {
			t.Error(got)
		}
		if got := it.askStream(lines + end); got.status != 200 || got.body != answers {
			t.Error(got)
		}
	}
	many := strings.Repeat(alone+"\n"+beach+"\n", 3000)
	if got := it.askStream(many); got.body != strings.Repeat(stranger+friend, 3000) {
		t.Error(len(got.body))
	}
	if got := it.askLines(content(t, "photos", "requests.jsonl")); got.body != content(t, "photos", "answers.jsonl") {
		t.Error(got)
	}
	if got := it.metric(`decisions_total{decision="deny"}`); got == "" || got == "0" {
		t.Error(got)
	}
}

func TestHostileEntitiesInRequests(t *testing.T) {
	it := serveExample(t, "photos", "--entities-in-requests", "--max-line", "200000")
	var users []string
	for at := 0; at < 4000; at++ {
		users = append(users, fmt.Sprintf(`{"uid":{"type":"User","id":"u%d"}}`, at))
	}
	for entities, wanted := range map[string]reply{
		`[` + strings.Join(users, ",") + `,` + annAlone + `]`:                                   {status: 200, body: stranger},
		`[` + strings.Join(users, ",") + `,` + users[7] + `]`:                                   {status: 400, body: `{"refused":401}` + "\n"},
		`[` + strings.Repeat(`[`, 90000) + strings.Repeat(`]`, 90000) + `]`:                     {status: 400, body: `{"refused":501}` + "\n"},
		`[` + strings.Repeat(`[`, 5000) + strings.Repeat(`]`, 5000) + `]`:                       {status: 400, body: `{"refused":501}` + "\n"},
		`[` + strings.Repeat(`1,`, 90000) + `1]`:                                                {status: 400, body: `{"refused":502}` + "\n"},
		`"` + strings.Repeat(`a`, 150000) + `"`:                                                 {status: 400, body: `{"refused":502}` + "\n"},
		`[]` + strings.Repeat(`,"entities":[]`, 10000):                                          {status: 200, body: friend},
		`[{"uid":{"type":"User","id":"` + strings.Repeat("b", 150000) + `"}},` + annAlone + `]`: {status: 200, body: stranger},
	} {
		if got := it.ask(requestBringing(entities)); got.status != wanted.status || got.body != wanted.body {
			t.Error(entities[:20], got.status, got.body, wanted)
		}
		it.isAnswered(friend)
	}
	if got := it.ask(requestBringing(`["` + strings.Repeat(`a`, 200000) + `"]`)); got.status != 413 {
		t.Error(got.status)
	}
	it.isAnswered(friend)
}

// Requests with their entities on many connections, while entities change.
func TestEntitiesInRequestsWhileTheyChange(t *testing.T) {
	it := serveExample(t, "photos", "--entities-in-requests")
	var asking sync.WaitGroup
	for at := 0; at < 4; at++ {
		asking.Add(1)
		go func() {
			defer asking.Done()
			for count := 0; count < 200; count++ {
				if got := it.ask(requestBringing(`[` + annAlone + `]`)); got.status != 200 || got.body != stranger {
					t.Error(got)
				}
			}
		}()
	}
	for at := 0; at < 100; at++ {
		if got := it.patch(fmt.Sprintf(`{"upsert":[{"uid":{"type":"User","id":"u%d"}}]}`, at)); got.status != 200 {
			t.Error(got)
		}
	}
	asking.Wait()
	it.isAnswered(friend)
}
