package bobbinjade

import (
	"errors"
	"fmt"
	"os"
	"path/filepath"
	"strings"
	"testing"
)

// refusalLine gives the line that the program prints of a refused file.
func refusalLine(why *Refusal) string {
	offset := ""
	if why.Offset >= 0 {
		offset = fmt.Sprintf(`"offset":%d,`, why.Offset)
	}
	return fmt.Sprintf("{\"file\":\"%s\",%s\"refused\":%d}\n", why.File, offset, why.Number)
}

// answered gives the status and the text of a case with the settings of cedar.h: its answers, or what the program prints of files that are
// refused.
func answered(t *testing.T, folder string, settings uint32, bringsEntities bool) (int, string) {
	bytes := func(file string) []byte {
		text, err := os.ReadFile(filepath.Join(folder, file))
		if err != nil && !errors.Is(err, os.ErrNotExist) {
			t.Fatal(err)
		}
		return text
	}
	language := Language3
	if settings&2 != 0 {
		language = Language4
	}
	engine, err := New(Files{Schema: bytes("schema.json"), Policies: bytes("policies.cedar"), Links: bytes("links.json"),
		Entities: bytes("entities.json"), AnyDecimal: settings&1 != 0, Language: language})
	var text []byte
	if err == nil && bringsEntities {
		text, err = engine.AnswerWithEntities(bytes("requests.jsonl"))
	} else if err == nil {
		text, err = engine.Answer(bytes("requests.jsonl"))
	}
	var refusal *Refusal
	var faults *Faults
	switch {
	case errors.As(err, &refusal):
		return 2, refusalLine(refusal)
	case errors.As(err, &faults):
		return 3, faults.Report
	case err != nil:
		t.Fatal(folder, err)
	}
	return 0, string(text)
}

// TestCases answers the cases of answers, in the folder that BOBBINJADE_CASES names, which tools/running/binding_cases.py has written.
func TestCases(t *testing.T) {
	root := os.Getenv("BOBBINJADE_CASES")
	if root == "" {
		t.Skip("BOBBINJADE_CASES is not set")
	}
	list, err := os.ReadFile(filepath.Join(root, "list"))
	if err != nil {
		t.Fatal(err)
	}
	passed, failed := 0, 0
	for _, line := range strings.Split(strings.TrimSpace(string(list)), "\n") {
		var name string
		var wantedStatus int
		var settings uint32
		var bringsEntities bool
		if _, err := fmt.Sscan(line, &name, &wantedStatus, &settings, &bringsEntities); err != nil {
			t.Fatal(line, err)
		}
		wanted, err := os.ReadFile(filepath.Join(root, name, "wanted.jsonl"))
		if err != nil {
			t.Fatal(err)
		}
		status, text := answered(t, filepath.Join(root, name), settings, bringsEntities)
		if status == wantedStatus && text == string(wanted) {
			passed++
			continue
		}
		failed++
		t.Errorf("%s: status %d with the text\n%s", name, status, text)
	}
	fmt.Printf("%d passed, %d failed\n", passed, failed)
}
