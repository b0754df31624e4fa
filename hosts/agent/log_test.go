package main

import (
	"encoding/json"
	"fmt"
	"io"
	"strings"
	"sync"
	"sync/atomic"
	"testing"
	"time"
)

// Where nobody reads the log, requests go on.
func TestALogThatNobodyReads(t *testing.T) {
	it := serveExample(t, "notes")
	eventually(t, "the agent listens", func() bool { return strings.Count(it.log.String(), `"event":"listening"`) == 2 })
	reader, writer := io.Pipe()
	it.agent.log.writing.Lock()
	it.agent.log.to = writer
	it.agent.log.writing.Unlock()
	it.ask("{")
	eventually(t, "the log waits", func() bool {
		isFree := it.agent.log.writing.TryLock()
		if isFree {
			it.agent.log.writing.Unlock()
		}
		return !isFree
	})
	done := make(chan reply)
	go func() { done <- it.ask("{") }()
	select {
	case got := <-done:
		if got.status != 400 {
			t.Error(got)
		}
	case <-time.After(20 * time.Second):
		t.Error("a request waits for the log")
	}
	go func() { _, _ = io.Copy(io.Discard, reader) }()
}

// What is counted is one line with its count, and more things than have a place are counted together.
func TestWhatIsCountedInTheLog(t *testing.T) {
	to := &lockedBuffer{}
	log := newLogger(to)
	for at := 0; at < mostRepeats+7; at++ {
		log.repeat(repeat{event: "refused", name: fmt.Sprint(at)}, 3)
	}
	log.flush()
	lines := strings.Split(strings.TrimSuffix(to.String(), "\n"), "\n")
	sum := uint64(0)
	for _, line := range lines {
		var read struct {
			Event, Name string
			Count       uint64
		}
		if err := json.Unmarshal([]byte(line), &read); err != nil || read.Event != "refused" {
			t.Error(line, err)
		}
		if read.Name == "(others)" && read.Count != 21 {
			t.Error(line)
		}
		sum += read.Count
	}
	if len(lines) != mostRepeats+1 || sum != 3*(mostRepeats+7) {
		t.Error(len(lines), sum)
	}
	log.flush()
	if got := strings.Count(to.String(), "\n"); got != len(lines) {
		t.Error("counted twice: ", got)
	}
}

// What is counted while the log is written is written once.
func TestCountingWhileTheLogIsWritten(t *testing.T) {
	buffer := &lockedBuffer{}
	log := newLogger(buffer)
	const threads, each = 4, 20000
	var counting, writing sync.WaitGroup
	var isOver atomic.Bool
	for at := 0; at < threads; at++ {
		counting.Add(1)
		go func() {
			defer counting.Done()
			for turn := 0; turn < each; turn++ {
				log.repeat(repeat{event: "refused", name: "502"}, 1)
			}
		}()
	}
	writing.Add(1)
	go func() {
		defer writing.Done()
		for !isOver.Load() {
			log.flush()
		}
	}()
	counting.Wait()
	isOver.Store(true)
	writing.Wait()
	log.flush()
	sum := 0
	for _, line := range strings.Split(strings.TrimSuffix(buffer.String(), "\n"), "\n") {
		sum += decoded[struct{ Count int }](t, line).Count
	}
	if sum != threads*each {
		t.Error(sum)
	}
}
