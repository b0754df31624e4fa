package main

// Several files at once: an object with the keys schema, policies, links and entities. What is not exactly that is refused. The JSON of Go
// alone would have keys in other case, and would put U+FFFD in place of what is not UTF-8.

import (
	"bytes"
	"encoding/json"
	"errors"
	"fmt"
	"io"
	"strconv"
	"unicode/utf16"
	"unicode/utf8"

	"bobbinjade"
)

// errObject says that several files at once have another form.
var errObject = errors.New("the body is not an object with some of the keys schema, policies (a string), links and entities")

// notObject says what is wrong with the form of several files.
func notObject(why string) error {
	return fmt.Errorf("%w: %s", errObject, why)
}

// replaceSeveral replaces the files that an object has. Those that are left out stay.
func replaceSeveral(files *bobbinjade.Files, body []byte) error {
	sent, err := readSeveral(body)
	if err != nil {
		return err
	}
	for key, value := range sent {
		content := []byte(value)
		if key == bobbinjade.Policies.String() {
			if content, err = exactString(value); err != nil {
				return err
			}
		}
		*contentOf(files, fileNames[key]) = content
	}
	return nil
}

// fileNames are the files by the keys that they have in an object.
var fileNames = map[string]bobbinjade.File{
	"schema": bobbinjade.Schema, "policies": bobbinjade.Policies, "links": bobbinjade.Links, "entities": bobbinjade.Entities,
}

// readSeveral gives the values of an object by its keys.
func readSeveral(body []byte) (map[string]json.RawMessage, error) {
	sent, err := readObject(body, func(key string) error {
		if _, isOne := fileNames[key]; !isOne {
			return errors.New("it has the key " + strconv.Quote(key))
		}
		return nil
	})
	if err != nil {
		return nil, notObject(err.Error())
	}
	return sent, nil
}

// readObject gives the values of an object of JSON by its keys. It judges each key, of which none is repeated, and nothing is after it.
func readObject(body []byte, judge func(key string) error) (map[string]json.RawMessage, error) {
	if !utf8.Valid(body) {
		return nil, errors.New("it is not UTF-8")
	}
	decoder := json.NewDecoder(bytes.NewReader(body))
	if open, err := decoder.Token(); err != nil || open != json.Delim('{') {
		return nil, errors.New("it is not an object of JSON")
	}
	sent := map[string]json.RawMessage{}
	for decoder.More() {
		token, err := decoder.Token()
		key, isKey := token.(string)
		var value json.RawMessage
		if err != nil || !isKey || decoder.Decode(&value) != nil {
			return nil, errors.New("it is not JSON")
		}
		if err := judge(key); err != nil {
			return nil, err
		}
		if _, isThere := sent[key]; isThere {
			return nil, errors.New("it has the key " + strconv.Quote(key) + " twice")
		}
		sent[key] = value
	}
	if closing, err := decoder.Token(); err != nil || closing != json.Delim('}') {
		return nil, errors.New("it is not JSON")
	}
	if _, err := decoder.Token(); err != io.EOF {
		return nil, errors.New("something is after it")
	}
	return sent, nil
}

// exactString gives the bytes of a string of JSON. A surrogate without its other half denotes no character, and is refused.
func exactString(value json.RawMessage) ([]byte, error) {
	var text string
	if len(value) == 0 || value[0] != '"' || json.Unmarshal(value, &text) != nil {
		return nil, notObject("policies are a string")
	}
	if hasLoneSurrogate(value) {
		return nil, notObject("policies have half of a surrogate pair")
	}
	return []byte(text), nil
}

// hasLoneSurrogate says whether a string of JSON has an escape of half a surrogate pair without the other half.
func hasLoneSurrogate(value []byte) bool {
	for at := 0; at < len(value); at++ {
		if value[at] != '\\' {
			continue
		}
		at++
		first, isOne := escaped(value[at:])
		if !isOne || !utf16.IsSurrogate(first) {
			continue
		}
		if len(value) < at+6 || value[at+5] != '\\' {
			return true
		}
		second, isOne := escaped(value[at+6:])
		if !isOne || utf16.DecodeRune(first, second) == utf8.RuneError {
			return true
		}
		at += 10
	}
	return false
}

// escaped gives the number of an escape of JSON after its backslash, such as u00e9. It is false where that is another escape.
func escaped(text []byte) (rune, bool) {
	if len(text) < 5 || text[0] != 'u' {
		return 0, false
	}
	number, err := strconv.ParseUint(string(text[1:5]), 16, 32)
	return rune(number), err == nil
}
