package main

import (
	"bufio"
	"fmt"
	"io"
	"math/rand"
	"net/http"
	"strings"
	"testing"
)

func TestExamplesByteForByte(t *testing.T) {
	for _, name := range exampleNames(t) {
		it := serveExample(t, name)
		requests, answers := content(t, name, "requests.jsonl"), content(t, name, "answers.jsonl")
		if got := it.askLines(requests); got.status != 200 || got.body != answers || got.header.Get("Content-Type") != "application/x-ndjson" {
			t.Error(name, got)
		}
		if got := it.askStream(requests); got.status != 200 || got.body != answers {
			t.Error(name, got)
		}
		wanted := strings.SplitAfter(answers, "\n")
		for at, request := range strings.Split(strings.TrimSuffix(requests, "\n"), "\n") {
			status := 200
			if strings.HasPrefix(wanted[at], `{"refused":`) {
				status = 400
			}
			if got := it.ask(request); got.status != status || got.body != wanted[at] || got.header.Get("Cedar-Version") != "1" {
				t.Error(name, request, got)
			}
		}
	}
}

func examplesAndNames(t *testing.T) []string { return exampleNames(t) }

// mutated gives request lines that are made of those of an example, with bytes changed, left out and repeated.
func mutated(random *rand.Rand, requests string, count int) string {
	lines := strings.Split(strings.TrimSuffix(requests, "\n"), "\n")
	var all []string
	for at := 0; at < count; at++ {
		text := []byte(lines[random.Intn(len(lines))])
		for times := random.Intn(4); times > 0 && len(text) > 0; times-- {
			place := random.Intn(len(text))
			switch random.Intn(4) {
			case 0:
				text[place] = `{}[]":,\x e1`[random.Intn(12)]
			case 1:
				text[place] = byte(11 + random.Intn(245))
			case 2:
				text = text[:place]
			default:
				text = append(text, text[place:]...)
			}
		}
		all = append(all, string(text))
	}
	return strings.Join(all, "\n")
}

func TestLinesAsTheProgramAnswersThem(t *testing.T) {
	random := rand.New(rand.NewSource(7))
	for _, name := range exampleNames(t) {
		it := serveExample(t, name)
		_, files := copied(t, name)
		for round := 0; round < 8; round++ {
			lines := mutated(random, content(t, name, "requests.jsonl"), 1+random.Intn(6000))
			if round%2 == 0 {
				lines += "\n"
			}
			wanted, _, status := program(t, "", lines, append([]string{"authorize", "--quiet"}, files...)...)
			if status != 0 || wanted == "" {
				t.Fatal(status)
			}
			ask := it.askLines
			if round >= 4 {
				ask = it.askStream
			}
			got := ask(lines)
			if got.status != 200 || got.body != wanted {
				t.Error(name, round, got.status, len(got.body), len(wanted))
			}
		}
		lines := strings.Split(mutated(random, content(t, name, "requests.jsonl"), 200), "\n")
		wanted, _, _ := program(t, "", strings.Join(lines, "\n")+"\n", append([]string{"authorize", "--quiet"}, files...)...)
		for at, answer := range strings.SplitAfter(strings.TrimSuffix(wanted, "\n"), "\n") {
			if got := it.ask(lines[at]); strings.TrimSuffix(got.body, "\n") != strings.TrimSuffix(answer, "\n") {
				t.Errorf("%s: %q: %v in place of %s", name, lines[at], got, answer)
			}
		}
	}
}

func TestEmptyLinesAndBodies(t *testing.T) {
	it := serveExample(t, "notes")
	for body, wanted := range map[string]string{
		"":                           "",
		"\n":                         `{"refused":501}` + "\n",
		"\n\n":                       `{"refused":501}` + "\n" + `{"refused":501}` + "\n",
		line("ann", "write"):         allowedAnswer,
		line("ann", "write") + "\n":  allowedAnswer,
		"\n" + line("ann", "write"):  `{"refused":501}` + "\n" + allowedAnswer,
		"{}\r\n" + line("x", "read"): `{"refused":502}` + "\n" + `{"decision":"deny","determining":[],"erring":[]}` + "\n",
	} {
		if got := it.askLines(body); got.status != 200 || got.body != wanted {
			t.Errorf("%q: %v", body, got)
		}
		if got := it.askStream(body); got.status != 200 || got.body != wanted {
			t.Errorf("%q: %v", body, got)
		}
	}
}

func TestOneRequestOfSeveralLines(t *testing.T) {
	it := serveExample(t, "notes")
	pretty := strings.NewReplacer("{", "{\n  ", `","`, "\",\r\n  \"", "}", "\n}\n").Replace(line("ann", "write"))
	if got := it.ask(pretty); got.status != 200 || got.body != allowedAnswer {
		t.Error(got)
	}
	if got := it.ask(line("ann", "write") + "\n" + line("ann", "write")); got.status != 400 || got.body != `{"refused":501}`+"\n" {
		t.Error(got)
	}
}

func TestTypesOfBodies(t *testing.T) {
	it := serveExample(t, "notes")
	for mediaType, status := range map[string]int{"": 200, "application/json": 200, "application/json; charset=utf-8": 200,
		"application/x-www-form-urlencoded": 200, "Application/X-NDJSON": 200, "text/plain": 415, "multipart/form-data": 415, "/": 415} {
		if got := it.call("POST", "/v1/authorize", mediaType, line("ann", "write")); got.status != status {
			t.Error(mediaType, got)
		}
	}
	twice := it.request("POST", "http://"+it.address+"/v1/authorize", "application/json", strings.NewReader(line("ann", "write")))
	twice.Header.Add("Content-Type", "application/x-ndjson")
	if got := it.send(twice); got.status != 415 {
		t.Error(got)
	}
}

// A client that sends a line, waits for its answer and then sends the next gets each answer before the body ends.
func TestAnswersWhileTheBodyArrives(t *testing.T) {
	it := serveExample(t, "notes")
	connection := it.begun("application/x-ndjson")
	reader := bufio.NewReader(connection)
	send := func(text string) { _ = chunk(connection, text) }
	half := line("ann", "write")[:20]
	send(half)
	send(line("ann", "write")[20:] + "\n" + line("carol", "read")[:5])
	answer, err := http.ReadResponse(reader, nil)
	if err != nil || answer.StatusCode != 200 {
		t.Fatal(err, answer)
	}
	body := bufio.NewReader(answer.Body)
	if text, err := body.ReadString('\n'); err != nil || text != allowedAnswer {
		t.Error(text, err)
	}
	send(line("carol", "read")[5:] + "\n")
	if text, err := body.ReadString('\n'); err != nil || text != deniedAnswer {
		t.Error(text, err)
	}
	send("\n" + line("ann", "write"))
	if text, err := body.ReadString('\n'); err != nil || text != `{"refused":501}`+"\n" {
		t.Error(text, err)
	}
	fmt.Fprint(connection, "0\r\n\r\n")
	if text, err := io.ReadAll(body); err != nil || string(text) != allowedAnswer {
		t.Error(string(text), err)
	}
}

// A body of lines of 200,000 bytes each is longer than each buffer.
func TestLongLines(t *testing.T) {
	it := serveExample(t, "notes")
	long := strings.Replace(line("ann", "write"), "ann", strings.Repeat("a", 200_000), 1)
	lines := strings.Repeat(line("ann", "write")+"\n"+long+"\n", 5)
	if got := it.askLines(lines); got.status != 200 || got.body != strings.Repeat(allowedAnswer+deniedAnswer, 5) {
		t.Error(got.status, len(got.body))
	}
}

func TestOutcomes(t *testing.T) {
	for text, wanted := range map[string]outcome{allowedAnswer: allowed, deniedAnswer: denied, `{"refused":510}`: refused, "": noDecision,
		`{"decision":"allowed"}`: noDecision, `{"decision": "allow",`: noDecision} {
		if got, _ := outcomeOf([]byte(text)); got != wanted {
			t.Error(text, got)
		}
	}
	for text, wanted := range map[string]int{`{"refused":510}`: 510, `{"refused":1}`: 1, `{"refused":`: 0} {
		if _, got := outcomeOf([]byte(text)); got != wanted {
			t.Error(text, got)
		}
	}
}

// An integer overflow has a policy fail. The answer is that of the rule in README.md: a policy that fails is skipped and listed.
func TestErringPolicies(t *testing.T) {
	it := serveExample(t, "notes")
	policies := `@id("a \"b\"") permit(principal, action, resource) when { 9223372036854775807 + 1 > 0 };`
	if got := it.put("/v1/policies", policies); got.status != 200 {
		t.Fatal(got)
	}
	wanted := `{"decision":"deny","determining":[],"erring":[{"error":"overflow","policy":"a \"b\""}]}` + "\n"
	if got := it.ask(line("ann", "write")); got.status != 200 || got.body != wanted {
		t.Error(got)
	}
	if got := it.askLines(strings.Repeat(line("ann", "write")+"\n", 3)); got.body != strings.Repeat(wanted, 3) {
		t.Error(got)
	}
	if got := it.metric(`erring_total{policy="a \"b\"",error="overflow"}`); got != "4" {
		t.Error(got)
	}
	eventually(t, "the log names the policy", func() bool {
		return strings.Contains(it.log.String(), `"event":"erring","name":"a \"b\"","error":"overflow","version":2,"count":`)
	})
}
