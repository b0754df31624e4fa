package main

// What is left out of the decision log, with --decisions-omit: keys of requests, whose values may be nobody's business.

import (
	"bytes"
	"encoding/json"
	"fmt"
	"strings"
)

// omittedKeys are keys of requests.
type omittedKeys map[string]bool

// omittedKeysOf gives the keys of a list with commas; nil where it is empty.
func omittedKeysOf(list string) (omittedKeys, error) {
	if list == "" {
		return nil, nil
	}
	keys := omittedKeys{}
	for _, key := range strings.Split(list, ",") {
		switch key {
		case "principal", "action", "resource", "context", "entities":
			keys[key] = true
		default:
			return nil, fmt.Errorf("--decisions-omit: %q is none of principal, action, resource, context and entities", key)
		}
	}
	return keys, nil
}

// of gives a request without the keys, and the field that says which were left out. A refused request may have another form than a request
// has, so it is left out as a whole.
func (o omittedKeys) of(request, answer []byte) ([]byte, string) {
	if o == nil {
		return request, ""
	}
	if !bytes.HasPrefix(answer, refusalBegins) {
		if kept, omitted, isOne := o.without(request); isOne {
			if len(omitted) == 0 {
				return request, ""
			}
			return kept, `,"omitted":["` + strings.Join(omitted, `","`) + `"]`
		}
	}
	return nil, `,"omitted":["request"]`
}

// without gives an object of JSON without the keys, and the keys that it had of them. It is false where the text is not one object.
func (o omittedKeys) without(request []byte) ([]byte, []string, bool) {
	decoder := json.NewDecoder(bytes.NewReader(request))
	if open, err := decoder.Token(); err != nil || open != json.Delim('{') {
		return nil, nil, false
	}
	kept := append(make([]byte, 0, len(request)), '{')
	var omitted []string
	for decoder.More() {
		token, err := decoder.Token()
		key, isKey := token.(string)
		var value json.RawMessage
		if err != nil || !isKey || decoder.Decode(&value) != nil {
			return nil, nil, false
		}
		if o[key] {
			omitted = append(omitted, key)
			continue
		}
		if len(kept) > 1 {
			kept = append(kept, ',')
		}
		kept = append(append(appendQuoted(kept, key), ':'), value...)
	}
	closing, err := decoder.Token()
	return append(kept, '}'), omitted, err == nil && closing == json.Delim('}')
}
