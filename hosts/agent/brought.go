package main

// Entities that a request brings, with --entities-in-requests: entries under a fifth key, which hold for this request alone. The library
// reads them.

import (
	"bytes"
	"runtime"

	"bobbinjade"
)

// bringing has a place for each call that may bring entities. Each takes a processor, and memory for what it brings: more than there are
// processors would take more memory, and no less time.
var bringing = make(chan struct{}, runtime.GOMAXPROCS(0))

// linesWithEntities answers request lines, each of which may bring its entities.
func linesWithEntities(engine *bobbinjade.Engine, text, lines []byte) ([]byte, error) {
	bringing <- struct{}{}
	defer func() { <-bringing }()
	return engine.AppendAnswerWithEntities(text, lines)
}

// wordsWithEntities says in words why a request that may bring entities is refused.
func wordsWithEntities(engine *bobbinjade.Engine, request []byte) (string, error) {
	bringing <- struct{}{}
	defer func() { <-bringing }()
	return engine.ExplainLineWithEntities(request)
}

// oneWithEntities answers one request, which may bring its entities. The library takes lines. A line feed is between the tokens of JSON,
// where a tab means the same, or in a string, where both are refused.
func oneWithEntities(engine *bobbinjade.Engine, text, request []byte) ([]byte, error) {
	if len(request) == 0 {
		return engine.AppendAnswerLine(text, request)
	}
	if bytes.IndexByte(request, '\n') >= 0 {
		request = bytes.ReplaceAll(request, []byte("\n"), []byte("\t"))
	}
	answer, err := linesWithEntities(engine, text, request)
	return bytes.TrimSuffix(answer, []byte("\n")), err
}
