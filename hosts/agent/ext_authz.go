package main

// Envoy's ext_authz over HTTP: a request that a mapping makes of the method, the path and the headers of the request that is to be
// checked. 200 is an allow and 403 a deny. Any other status says that there is no decision, and Envoy denies.

import (
	"encoding/json"
	"errors"
	"fmt"
	"net/http"
	"os"
	"strings"
	"time"
	"unicode/utf16"
	"unicode/utf8"
)

// The path before that of the request that is to be checked.
const extAuthzPath = "/v1/ext_authz"

// errMapping says that the file of --ext-authz is wrong.
var errMapping = errors.New("--ext-authz")

// A mapping says where the parts of a request come from. Context is the name of a header with a JSON object, or empty.
type mapping struct {
	Principal source `json:"principal"`
	Action    source `json:"action"`
	Resource  source `json:"resource"`
	Context   struct {
		Header string `json:"header"`
	} `json:"context"`
}

// A source says where a uid comes from. One of header, method and path is there. Without a type, the header has a whole uid.
type source struct {
	Type   string            `json:"type"`
	Header string            `json:"header"` // the header whose value is the id
	Method map[string]string `json:"method"` // the ids of methods
	Path   string            `json:"path"`   // a path whose part {id} is the id, for example /notebooks/{id}
}

// A mappedUID is a uid as a request has it: a string as in policies, or a type with an id.
type mappedUID struct {
	whole, typeName, id string
}

// readMapping reads a mapping; it is nil where the path is empty.
func readMapping(path string) (*mapping, error) {
	if path == "" {
		return nil, nil
	}
	content, err := os.ReadFile(path)
	if err != nil {
		return nil, fmt.Errorf("%w: %v", errMapping, err)
	}
	it := &mapping{}
	decoder := json.NewDecoder(strings.NewReader(string(content)))
	decoder.DisallowUnknownFields()
	if err := decoder.Decode(it); err != nil {
		return nil, fmt.Errorf("%w: %s: %v", errMapping, path, err)
	}
	for name, one := range map[string]source{"principal": it.Principal, "action": it.Action, "resource": it.Resource} {
		if err := one.check(); err != nil {
			return nil, fmt.Errorf("%w: %s: %s: %v", errMapping, path, name, err)
		}
	}
	return it, nil
}

// check finds what is wrong with a source.
func (s *source) check() error {
	count := 0
	for _, isThere := range []bool{s.Header != "", len(s.Method) > 0, s.Path != ""} {
		if isThere {
			count++
		}
	}
	switch {
	case count != 1:
		return errors.New("one of header, method and path is needed")
	case s.Type == "" && s.Header == "":
		return errors.New("type is needed, since only a header can have a whole uid")
	case s.Path != "" && (!strings.HasPrefix(s.Path, "/") || strings.Count(s.Path, "{id}") != 1 || !isSegment(s.Path)):
		return errors.New("path begins with / and has one segment {id}")
	}
	return nil
}

// isSegment says whether {id} is a whole segment of a path.
func isSegment(path string) bool {
	before, after, _ := strings.Cut(path, "{id}")
	return strings.HasSuffix(before, "/") && (after == "" || strings.HasPrefix(after, "/"))
}

// uid gives the uid for a request that is to be checked.
func (s *source) uid(r *http.Request) (mappedUID, error) {
	switch {
	case s.Header != "":
		value, err := onlyHeader(r, s.Header)
		if err != nil {
			return mappedUID{}, err
		}
		if s.Type == "" {
			return mappedUID{whole: value}, nil
		}
		return mappedUID{typeName: s.Type, id: value}, nil
	case s.Path != "":
		id, isOne := pathID(s.Path, strings.TrimPrefix(r.URL.EscapedPath(), extAuthzPath))
		if !isOne {
			return mappedUID{}, errors.New("the path does not fit " + s.Path)
		}
		return mappedUID{typeName: s.Type, id: id}, nil
	}
	id, isOne := s.Method[r.Method]
	if !isOne {
		return mappedUID{}, errors.New("the mapping has no action for this method")
	}
	return mappedUID{typeName: s.Type, id: id}, nil
}

// onlyHeader gives the value of a header that is there once.
func onlyHeader(r *http.Request, name string) (string, error) {
	values := r.Header.Values(name)
	if len(values) != 1 || values[0] == "" || !utf8.ValidString(values[0]) {
		return "", errors.New("the header " + name + " is needed once, in UTF-8")
	}
	return values[0], nil
}

// pathID gives the part {id} of a path that fits a pattern. A segment with an escape, and the segments . and .., fit no pattern: what they
// name depends on who reads them.
func pathID(pattern, path string) (string, bool) {
	wanted, found := strings.Split(pattern, "/"), strings.Split(path, "/")
	if len(wanted) != len(found) {
		return "", false
	}
	id := ""
	for at, segment := range found {
		switch {
		case wanted[at] != "{id}":
			if wanted[at] != segment {
				return "", false
			}
		case segment == "" || segment == "." || segment == ".." || strings.Contains(segment, "%") || !utf8.ValidString(segment):
			return "", false
		default:
			id = segment
		}
	}
	return id, true
}

// append appends the uid as a request line has it.
func (u *mappedUID) append(to []byte) []byte {
	if u.whole != "" {
		return appendQuoted(to, u.whole)
	}
	to = appendQuoted(append(to, `{"type":`...), u.typeName)
	to = appendQuoted(append(to, `,"id":`...), u.id)
	return append(to, '}')
}

// request appends the request line of a request that is to be checked.
func (m *mapping) request(to []byte, r *http.Request) ([]byte, error) {
	to = append(to, '{')
	for _, it := range []struct {
		key    string
		source *source
	}{{`"principal":`, &m.Principal}, {`,"action":`, &m.Action}, {`,"resource":`, &m.Resource}} {
		uid, err := it.source.uid(r)
		if err != nil {
			return to, err
		}
		to = uid.append(append(to, it.key...))
	}
	if m.Context.Header != "" && len(r.Header.Values(m.Context.Header)) > 0 {
		value, err := onlyHeader(r, m.Context.Header)
		if err != nil || !json.Valid([]byte(value)) {
			return to, errors.New("the header " + m.Context.Header + " is one JSON object")
		}
		to = append(append(to, `,"context":`...), value...)
	}
	return append(to, '}'), nil
}

// extAuthz answers whether a request may go on. The body is not read: Envoy sends none unless its configuration says so.
func (a *agent) extAuthz(w http.ResponseWriter, r *http.Request) {
	defer a.metrics.took(callExtAuthz, time.Now())
	it := takeRoom()
	defer it.give()
	var err error
	if it.body, err = a.mapping.request(it.body, r); err != nil {
		a.log.repeat(repeat{event: "mapping", name: err.Error()}, 1)
		a.fail(w, http.StatusBadRequest, "mapping", noDecisionWords)
		return
	}
	what, _ := a.decide(w, it)
	said, isOne := authzAnswers[what]
	if !isOne {
		return
	}
	header := w.Header()
	header["Content-Type"] = jsonType
	if ids := determiningOf(it.answer); a.namesIDs && ids != "" {
		header["Cedar-Policies"] = []string{ids}
	}
	w.WriteHeader(said.status)
	_, _ = w.Write(said.body)
}

// noDecisionWords are all that a client is told where nothing was decided: the log says why.
const noDecisionWords = "nothing was decided"

// authzAnswers are the statuses and bodies for outcomes. A proxy hands them on to its clients, so no policy is named there.
var authzAnswers = map[outcome]struct {
	status int
	body   []byte
}{
	allowed: {http.StatusOK, []byte(`{"decision":"allow"}` + "\n")},
	denied:  {http.StatusForbidden, []byte(`{"decision":"deny"}` + "\n")},
	refused: {http.StatusBadRequest, []byte(`{"error":"` + noDecisionWords + `"}` + "\n")},
}

// The header with the ids of policies has at most so many bytes. A longer one is left out.
const mostIDs = 4096

// determiningOf gives the ids of the policies that determine an answer, as a list of JSON in ASCII; it is empty where the list is too long.
func determiningOf(answer []byte) string {
	var read struct {
		Determining []string `json:"determining"`
	}
	if json.Unmarshal(answer, &read) != nil || read.Determining == nil {
		return ""
	}
	list := []byte{'['}
	for at, id := range read.Determining {
		if at > 0 {
			list = append(list, ',')
		}
		list = appendASCII(list, id)
		if len(list) >= mostIDs {
			return ""
		}
	}
	return string(append(list, ']'))
}

// appendASCII appends a string as JSON writes it in ASCII, which alone is sure to pass through a header.
func appendASCII(to []byte, text string) []byte {
	for _, r := range string(appendQuoted(nil, text)) {
		switch {
		case r < utf8.RuneSelf:
			to = append(to, byte(r))
		case r < 0x10000:
			to = append(to, fmt.Sprintf("\\u%04x", r)...)
		default:
			first, second := utf16.EncodeRune(r)
			to = append(to, fmt.Sprintf("\\u%04x\\u%04x", first, second)...)
		}
	}
	return to
}
