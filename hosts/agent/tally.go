package main

// Tallies: what answer lines say, counted without a parser of JSON. The engine writes no spaces, so the beginning of a line says what it
// is, and its end whether a policy failed.

import (
	"bytes"
	"encoding/json"
)

// The least number that is not counted on its own: all refusals of requests are below it.
const refusalNumbers = 1024

var (
	allowBegins   = []byte(`{"decision":"allow",`)
	denyBegins    = []byte(`{"decision":"deny",`)
	refusalBegins = []byte(`{"refused":`)
	noneErrs      = []byte(`"erring":[]}`)
)

// An outcome is what an answer line says.
type outcome int

// The outcomes. A line of another form has no decision, and neither has a refusal.
const (
	noDecision outcome = iota
	allowed
	denied
	refused
	outcomeCount
)

// A tally counts the answer lines of a request. It has a place for the first numbers of refusals that it meets.
type tally struct {
	outcomes [outcomeCount]uint64
	refused  [4]struct {
		number int
		count  uint64
	}
	numbers int
}

// refuse counts a refusal. It is false where there is not a place for its number.
func (t *tally) refuse(number int) bool {
	for at := range t.refused[:t.numbers] {
		if t.refused[at].number == number {
			t.refused[at].count++
			return true
		}
	}
	if t.numbers == len(t.refused) {
		return false
	}
	t.refused[t.numbers].number, t.refused[t.numbers].count = number, 1
	t.numbers++
	return true
}

// outcomeOf gives the outcome of an answer line, and the number of a refusal.
func outcomeOf(line []byte) (outcome, int) {
	switch {
	case bytes.HasPrefix(line, allowBegins):
		return allowed, 0
	case bytes.HasPrefix(line, denyBegins):
		return denied, 0
	case bytes.HasPrefix(line, refusalBegins):
		number := 0
		for _, digit := range line[len(refusalBegins):] {
			if digit < '0' || digit > '9' || number >= refusalNumbers {
				break
			}
			number = number*10 + int(digit-'0')
		}
		return refused, number % refusalNumbers
	}
	return noDecision, 0
}

// failedPolicy is a policy that failed, and why.
type failedPolicy struct {
	Policy string `json:"policy"`
	Error  string `json:"error"`
}

// failedPolicies gives the policies that failed according to an answer line with this outcome.
func failedPolicies(line []byte, what outcome) []failedPolicy {
	if what == refused || bytes.HasSuffix(line, noneErrs) {
		return nil
	}
	var answer struct {
		Erring []failedPolicy `json:"erring"`
	}
	_ = json.Unmarshal(line, &answer)
	return answer.Erring
}
