package main

// Logs: one JSON object a line on standard error, for what happens to the process and its files. What clients can cause is counted, and
// logged once a second, so that they cannot fill a disk.

import (
	"fmt"
	"io"
	"sort"
	"strconv"
	"sync"
	"time"
	"unicode/utf8"
)

// logger writes lines. Any number of goroutines may use it. Requests only count, so they do not wait where nobody reads the log.
type logger struct {
	writing  sync.Mutex // of to
	to       io.Writer
	isDebug  bool       // whether lines of the level debug are written
	lock     sync.Mutex // of repeated
	repeated map[repeat]uint64
}

// repeat is what is counted in place of being logged each time.
type repeat struct {
	event, name, why string
	version          uint64
}

// At most so many things are counted on their own in a second. The others are counted together.
const mostRepeats = 1000

// field is a key of a line with its value, which is JSON.
type field struct {
	key, value string
}

// text, number and fraction make fields.
func text(key, value string) field { return field{key, string(appendQuoted(nil, value))} }

func number(key string, value uint64) field { return field{key, strconv.FormatUint(value, 10)} }

func seconds(key string, value time.Duration) field {
	return field{key, strconv.FormatFloat(value.Seconds(), 'f', 6, 64)}
}

func newLogger(to io.Writer) *logger {
	return &logger{to: to, repeated: map[repeat]uint64{}}
}

// event writes a line: its time, its level, what happened, and fields. The level debug is for what may happen many times a second.
func (l *logger) event(level, event string, fields ...field) {
	if level == "debug" && !l.isDebug {
		return
	}
	line := append([]byte(`{"time":"`), time.Now().UTC().Format(time.RFC3339Nano)...)
	line = append(line, `","level":"`+level+`","event":"`+event+`"`...)
	for _, it := range fields {
		line = append(appendQuoted(append(line, ','), it.key), ':')
		line = append(line, it.value...)
	}
	line = append(line, "}\n"...)
	l.writing.Lock()
	defer l.writing.Unlock()
	_, _ = l.to.Write(line)
}

// repeat counts what clients cause: refused requests, or policies that failed.
func (l *logger) repeat(it repeat, count uint64) {
	l.lock.Lock()
	defer l.lock.Unlock()
	if _, isKnown := l.repeated[it]; !isKnown && len(l.repeated) >= mostRepeats {
		it = repeat{event: it.event, name: "(others)"}
	}
	l.repeated[it] += count
}

// flush writes what was counted since the last call.
func (l *logger) flush() {
	l.lock.Lock()
	counted := l.repeated
	l.repeated = map[repeat]uint64{}
	l.lock.Unlock()
	keys := make([]repeat, 0, len(counted))
	for it := range counted {
		keys = append(keys, it)
	}
	sort.Slice(keys, func(i, j int) bool { return fmt.Sprint(keys[i]) < fmt.Sprint(keys[j]) })
	for _, it := range keys {
		fields := []field{text("name", it.name)}
		if it.why != "" {
			fields = append(fields, text("error", it.why))
		}
		if it.version != 0 {
			fields = append(fields, number("version", it.version))
		}
		l.event("warning", it.event, append(fields, number("count", counted[it]))...)
	}
}

// Write logs what the HTTP server of the standard library says.
func (l *logger) Write(said []byte) (int, error) {
	l.repeat(repeat{event: "http", name: clipped(string(said))}, 1)
	return len(said), nil
}

// clipped gives the first 200 bytes of a text, without its line feed.
func clipped(text string) string {
	if len(text) > 200 {
		text = text[:200]
	}
	for len(text) > 0 && text[len(text)-1] == '\n' {
		text = text[:len(text)-1]
	}
	return text
}

const hexadecimal = "0123456789abcdef"

// appendQuoted appends a string as JSON writes it. Bytes that are not UTF-8 become U+FFFD.
func appendQuoted(to []byte, text string) []byte {
	to = append(to, '"')
	for at := 0; at < len(text); {
		b := text[at]
		switch {
		case b == '"' || b == '\\':
			to = append(to, '\\', b)
		case b == '\n':
			to = append(to, '\\', 'n')
		case b < 0x20 || b == 0x7f:
			to = append(to, '\\', 'u', '0', '0', hexadecimal[b>>4], hexadecimal[b&15])
		case b < utf8.RuneSelf:
			to = append(to, b)
		default:
			r, size := utf8.DecodeRuneInString(text[at:])
			to = utf8.AppendRune(to, r)
			at += size - 1
		}
		at++
	}
	return append(to, '"')
}
