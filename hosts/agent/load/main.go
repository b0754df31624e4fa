// Command load measures an agent: it sends the request lines of a file over and over, compares each answer with the wanted one, and prints
// requests a second and the times that they took.
//
//	go run ./load --requests requests.jsonl --answers answers.jsonl --connections 16 --batch 100
//
// With --rate the requests begin at fixed times, and a request that begins late, since the one before on its connection took long, is
// measured from the time at which it was to begin.
package main

import (
	"bufio"
	"bytes"
	"errors"
	"flag"
	"fmt"
	"io"
	"net"
	"os"
	"sort"
	"strconv"
	"sync"
	"time"
)

// A call is the bytes of a request, and the body that is wanted as its answer.
type call struct {
	sent, wanted []byte
}

// settings are what the command line says.
type settings struct {
	address, requests, answers string
	connections, batch, rate   int
	duration                   time.Duration
}

// result is what a connection has measured.
type result struct {
	took []time.Duration
	err  error
}

func main() {
	var it settings
	flag.StringVar(&it.address, "address", "127.0.0.1:8180", "the `ADDRESS` of the agent, or the path of its socket")
	flag.StringVar(&it.requests, "requests", "", "the `FILE` of request lines")
	flag.StringVar(&it.answers, "answers", "", "the `FILE` of the answer lines that are wanted")
	flag.IntVar(&it.connections, "connections", 1, "the `NUMBER` of connections")
	flag.IntVar(&it.batch, "batch", 0, "so many lines a request; 0 is a single request each")
	flag.IntVar(&it.rate, "rate", 0, "requests a second of all connections together; 0 is as many as there is time for")
	flag.DurationVar(&it.duration, "duration", 5*time.Second, "how long")
	flag.Parse()
	calls, err := callsOf(&it)
	if err == nil {
		err = measure(&it, calls)
	}
	if err != nil {
		fmt.Fprintln(os.Stderr, "load:", err)
		os.Exit(1)
	}
}

// callsOf makes the calls of the lines of the files. Refused lines are left out of single requests, whose status would not be 200.
func callsOf(it *settings) ([]call, error) {
	requests, err := linesOf(it.requests)
	if err != nil {
		return nil, err
	}
	answers, err := linesOf(it.answers)
	if err != nil {
		return nil, err
	}
	if len(requests) != len(answers) {
		return nil, errors.New("the files have different numbers of lines")
	}
	if it.batch > 0 {
		return []call{batchOf(requests, answers, it.batch)}, nil
	}
	var calls []call
	for at, request := range requests {
		if !bytes.HasPrefix(answers[at], []byte(`{"refused"`)) {
			calls = append(calls, call{posted("application/json", request), answers[at]})
		}
	}
	return calls, nil
}

// batchOf makes one call of lines that repeat.
func batchOf(requests, answers [][]byte, count int) call {
	var lines, wanted []byte
	for at := 0; at < count; at++ {
		lines = append(lines, requests[at%len(requests)]...)
		wanted = append(wanted, answers[at%len(answers)]...)
	}
	return call{posted("application/x-ndjson", lines), wanted}
}

// linesOf gives the lines of a file, each with its line feed.
func linesOf(path string) ([][]byte, error) {
	content, err := os.ReadFile(path)
	if err != nil {
		return nil, err
	}
	lines := bytes.Split(bytes.TrimSuffix(content, []byte("\n")), []byte("\n"))
	for at, line := range lines {
		lines[at] = append(line[:len(line):len(line)], '\n')
	}
	return lines, nil
}

// posted gives the bytes of a request.
func posted(mediaType string, body []byte) []byte {
	head := fmt.Sprintf("POST /v1/authorize HTTP/1.1\r\nHost: agent\r\nContent-Type: %s\r\nContent-Length: %d\r\n\r\n", mediaType, len(body))
	return append([]byte(head), body...)
}

// measure runs all connections, and prints what they measured.
func measure(it *settings, calls []call) error {
	results := make([]result, it.connections)
	var running sync.WaitGroup
	began := time.Now()
	for at := range results {
		running.Add(1)
		go func(at int) {
			defer running.Done()
			results[at] = ask(it, calls, at, began)
		}(at)
	}
	running.Wait()
	elapsed := time.Since(began).Seconds()
	var all []time.Duration
	for _, one := range results {
		if one.err != nil {
			return one.err
		}
		all = append(all, one.took...)
	}
	if len(all) == 0 {
		return errors.New("nothing was answered")
	}
	sort.Slice(all, func(i, j int) bool { return all[i] < all[j] })
	share := func(part float64) float64 { return float64(all[int(part*float64(len(all)-1))].Microseconds()) / 1000 }
	lines := 1
	if it.batch > 0 {
		lines = it.batch
	}
	fmt.Printf("%d connections: %.0f requests a second, %.0f lines a second; median %.3f ms, p99 %.3f ms, p99.9 %.3f ms, most %.3f ms\n",
		it.connections, float64(len(all))/elapsed, float64(len(all)*lines)/elapsed, share(0.5), share(0.99), share(0.999), share(1))
	return nil
}

// ask sends requests over one connection until the time is over.
func ask(it *settings, calls []call, number int, began time.Time) result {
	network := "tcp"
	if _, _, err := net.SplitHostPort(it.address); err != nil {
		network = "unix"
	}
	connection, err := net.Dial(network, it.address)
	if err != nil {
		return result{err: err}
	}
	defer connection.Close()
	reader := bufio.NewReaderSize(connection, 64<<10)
	body := make([]byte, 0, 64<<10)
	took := make([]time.Duration, 0, 1<<20/it.connections)
	for at := number; time.Since(began) < it.duration; at++ {
		start := wait(it, began, len(took), number)
		one := &calls[at%len(calls)]
		if _, err := connection.Write(one.sent); err != nil {
			return result{err: err}
		}
		if body, err = answer(reader, body); err != nil {
			return result{err: err}
		}
		took = append(took, time.Since(start))
		if !bytes.Equal(body, one.wanted) {
			return result{err: fmt.Errorf("answered %.200q in place of %.200q", body, one.wanted)}
		}
	}
	return result{took: took}
}

// wait waits for the time at which a request is to begin, and gives the time from which it is measured.
func wait(it *settings, began time.Time, done, number int) time.Time {
	if it.rate == 0 {
		return time.Now()
	}
	every := time.Second * time.Duration(it.connections) / time.Duration(it.rate)
	planned := began.Add(every*time.Duration(done) + every*time.Duration(number)/time.Duration(it.connections))
	rest := time.Until(planned)
	if rest <= 0 {
		return planned
	}
	time.Sleep(rest)
	return time.Now()
}

// answer reads an answer of the status 200, and gives its body.
func answer(reader *bufio.Reader, body []byte) ([]byte, error) {
	length := -1
	for isFirst := true; ; isFirst = false {
		line, err := reader.ReadSlice('\n')
		if err != nil {
			return nil, err
		}
		if isFirst && !bytes.HasPrefix(line, []byte("HTTP/1.1 200 ")) {
			return nil, fmt.Errorf("answered %q", line)
		}
		if value := bytes.TrimPrefix(line, []byte("Content-Length: ")); len(value) < len(line) {
			if length, err = strconv.Atoi(string(bytes.TrimSpace(value))); err != nil {
				return nil, err
			}
		}
		if len(bytes.TrimSpace(line)) == 0 {
			break
		}
	}
	if length < 0 {
		return nil, errors.New("an answer without Content-Length")
	}
	if cap(body) < length {
		body = make([]byte, length)
	}
	_, err := io.ReadFull(reader, body[:length])
	return body[:length], err
}
