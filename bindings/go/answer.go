package bobbinjade

import (
	"bytes"
	"encoding/json"
	"strings"
)

// responseOf reads an answer line. The library writes no spaces, and a quote in an id as an escape. So a line without escapes is cut at its
// quotes, and only another needs a parser of JSON.
func responseOf(text []byte, isAllowed bool) (Response, error) {
	response := Response{Allowed: isAllowed}
	if bytes.IndexByte(text, '\\') < 0 && cut(string(text), &response) {
		return response, nil
	}
	var read struct {
		Determining []string `json:"determining"`
		Erring      []Erring `json:"erring"`
	}
	if err := json.Unmarshal(text, &read); err != nil {
		return Response{}, err
	}
	return Response{Allowed: isAllowed, Determining: read.Determining, Erring: read.Erring}, nil
}

// cut reads the lists of an answer line without escapes. It is false where the line has another form.
func cut(line string, response *Response) bool {
	_, lists, isCut := strings.Cut(line, `,"determining":[`)
	determining, erring, isSplit := strings.Cut(lists, `],"erring":[`)
	erring, isWhole := cutSuffix(erring, `]}`)
	if !isCut || !isSplit || !isWhole {
		return false
	}
	response.Determining = []string{}
	if len(determining) >= 2 {
		response.Determining = strings.Split(determining[1:len(determining)-1], `","`)
	}
	for erring != "" {
		var one string
		one, erring, _ = strings.Cut(erring, `"},`)
		fault, policy, isCut := strings.Cut(strings.TrimSuffix(one, `"}`), `","policy":"`)
		if !isCut {
			return false
		}
		response.Erring = append(response.Erring, Erring{Policy: policy, Error: strings.TrimPrefix(fault, `{"error":"`)})
	}
	return true
}

// cutSuffix gives a text without this end, and whether it has it.
func cutSuffix(text, end string) (string, bool) {
	return strings.TrimSuffix(text, end), strings.HasSuffix(text, end)
}
