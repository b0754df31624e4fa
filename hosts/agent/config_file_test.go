package main

import (
	"flag"
	"os"
	"path/filepath"
	"strings"
	"testing"
	"time"
)

// configFile writes a file of settings.
func configFile(t *testing.T, text string) string {
	path := filepath.Join(t.TempDir(), "agent.json")
	write(t, path, text)
	return path
}

// Each kind of flag may be in the file, and the command line wins.
func TestTheConfigurationFile(t *testing.T) {
	path := configFile(t, `{"schema": "s.json", "policies": "p.cedar", "entities": "e.json", "listen": "unix:l", "admin": "unix:a",
		"admin-users": ["root", "7"], "admin-mode": "0660", "reload": "3s", "max-line": 1000, "any-decimal": true, "public-validate": false,
		"drain": "1m", "language": 4}`)
	got, err := parseConfig([]string{"--config", path, "--entities", "other.json", "--drain=2s", "--max-time", "7s"})
	if err != nil {
		t.Fatal(err)
	}
	isRight := got.paths == paths{schema: "s.json", policies: "p.cedar", entities: "other.json"} && got.listen == "unix:l" && got.users[0] &&
		got.users[7] && got.adminAccess.mode == 0o660 && got.reloadEvery == 3*time.Second && got.limits.line == 1000 && got.anyDecimal &&
		!got.isPublic && got.drain == 2*time.Second && got.limits.time == 7*time.Second && got.language == 4
	if !isRight {
		t.Error(got)
	}
}

// Whatever the file has and is not a setting is refused, with the name that is nearest.
func TestConfigurationFilesThatAreRefused(t *testing.T) {
	for text, wanted := range map[string]string{
		`{"lisen": "a:1"}`:                   `the key "lisen" is not the name of a flag: did you mean "listen"?`,
		`{"max_line": 1}`:                    `did you mean "max-line"?`,
		`{"Schema": "s"}`:                    `did you mean "schema"?`,
		`{"--policies": "s"}`:                `did you mean "policies"?`,
		`{"nothing-like-it": "s"}`:           `the key "nothing-like-it" is not the name of a flag`,
		`{"config": "s"}`:                    `the key "config" is not the name of a flag`,
		`{"version": true}`:                  `the key "version" is not the name of a flag`,
		`{"schema": "a", "schema": "b"}`:     `it has the key "schema" twice`,
		`{"schema": "a"}}`:                   `something is after it`,
		`{"schema": "a"`:                     `it is not JSON`,
		`[]`:                                 `it is not an object of JSON`,
		``:                                   `it is not an object of JSON`,
		"{\"schema\": \"\xff\"}":             `it is not UTF-8`,
		`{"schema": null}`:                   `schema: the value is a string`,
		`{"schema": {}}`:                     `schema: the value is a string`,
		`{"admin-users": [1]}`:               `admin-users: the value is a string, or a list of strings that is not empty`,
		`{"admin-users": []}`:                `admin-users: the value is a string, or a list of strings that is not empty`,
		`{"schema": true}`:                   `schema: the value is a string`,
		`{"schema": 5}`:                      `schema: the value is a string`,
		`{"schema": ["a", "b"]}`:             `schema: the value is a string`,
		`{"max-line": "a"}`:                  `max-line: the value is a whole number`,
		`{"max-line": 1.5}`:                  `max-line: the value is a whole number`,
		`{"max-line": true}`:                 `max-line: the value is a whole number`,
		`{"max-line": 99999999999999999999}`: `max-line: the value is a whole number`,
		`{"max-connections": ""}`:            `max-connections: the value is a whole number`,
		`{"any-decimal": "yes"}`:             `any-decimal: the value is true or false`,
		`{"any-decimal": 1}`:                 `any-decimal: the value is true or false`,
		`{"language": "four"}`:               `language: the value is a whole number`,
		`{"language": -4}`:                   `language: `,
		`{"reload": 5}`:                      `reload: the value is a time, for example "5s"`,
		`{"reload": "5"}`:                    `reload: the value is a time, for example "5s"`,
		`{"schema": "s", "policies": "p"}`:   `missing --entities`,
		`{"schema": "s", "admin": "a:818"}`:  `missing --policies, --entities`,
	} {
		if _, err := parseConfig([]string{"--config", configFile(t, text)}); err == nil || !strings.Contains(err.Error(), wanted) {
			t.Error(text, err)
		}
	}
	if said, status := ran(t, "--config", "/none"); status != statusUsage || !strings.Contains(said, "--config: open /none") {
		t.Error(status, said)
	}
}

// An agent whose flags are all in a file answers.
func TestAnAgentOfAFile(t *testing.T) {
	folder, files := copied(t, "notes")
	var members []string
	for at := 0; at < len(files); at += 2 {
		members = append(members, `"`+files[at][2:]+`":"`+files[at+1]+`"`)
	}
	it := started(t, filepath.Join(folder, "socket"), "--config", configFile(t, `{`+strings.Join(members, ",")+`}`))
	if got := it.ask(t, line("ann", "write")); got != allowedAnswer {
		t.Error(got)
	}
}

// The example of README.md is accepted.
func TestTheConfigurationOfTheReadme(t *testing.T) {
	text, err := os.ReadFile("README.md")
	if err != nil {
		t.Fatal(err)
	}
	_, rest, _ := strings.Cut(string(text), "The keys of `--config FILE`")
	_, rest, _ = strings.Cut(rest, "```json\n")
	block, _, isWhole := strings.Cut(rest, "```")
	got, err := parseConfig([]string{"--config", configFile(t, block)})
	if err != nil || !isWhole || !got.users[1001] || got.limits.line != 65536 {
		t.Error(got, err)
	}
}

// Each flag but two may be in a file.
func TestEachFlagMayBeInAFile(t *testing.T) {
	flags := flagsOf(&config{})
	flags.VisitAll(func(it *flag.Flag) {
		if err := knownFlag(flags, it.Name); (err != nil) != notInFile[it.Name] {
			t.Error(it.Name, err)
		}
	})
	for words, wanted := range map[[2]string]int{{"", ""}: 0, {"", "abc"}: 3, {"abc", ""}: 3, {"listen", "lisen"}: 1, {"kitten", "sitting"}: 3,
		{"flaw", "lawn"}: 2} {
		if got := distance(words[0], words[1]); got != wanted {
			t.Error(words, got)
		}
	}
}
