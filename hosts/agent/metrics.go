package main

// Metrics: counters of what was answered, in the text format of Prometheus.

import (
	"fmt"
	"io"
	"sort"
	"sync"
	"sync/atomic"
	"time"
)

// The calls whose time is measured.
const (
	callOne = iota
	callLines
	callValidate
	callExtAuthz
	callCount
)

var callNames = [callCount]string{"authorize", "authorize_lines", "validate", "ext_authz"}

// The upper bounds of the times that are counted together, in seconds.
var timeBounds = [...]float64{0.00005, 0.0001, 0.00025, 0.0005, 0.001, 0.0025, 0.005, 0.01, 0.025, 0.05, 0.1, 0.25, 0.5, 1, 2.5, 5, 10}

// At most so many policies that failed are counted by their ids. The others are counted together.
const countedPolicies = 1000

// times counts the requests of a call by how long they took.
type times struct {
	counts      [len(timeBounds) + 1]atomic.Uint64
	nanoseconds atomic.Uint64
}

// metrics are the counters of the process.
type metrics struct {
	allowed, denied atomic.Uint64
	refusals        [refusalNumbers]atomic.Uint64
	times           [callCount]times
	published       atomic.Uint64
	patched         atomic.Uint64 // of the published ones
	compacted       atomic.Uint64
	publishRefused  atomic.Uint64
	reloadRefused   atomic.Uint64
	turnedAway      atomic.Uint64 // connections that were closed at the limit
	lock            sync.Mutex    // of the maps
	erring          map[failedPolicy]uint64
	failures        map[string]uint64
}

func newMetrics() *metrics {
	return &metrics{erring: map[failedPolicy]uint64{}, failures: map[string]uint64{}}
}

// took counts a request that began then.
func (m *metrics) took(call int, began time.Time) {
	elapsed := time.Since(began)
	at := 0
	for at < len(timeBounds) && elapsed.Seconds() > timeBounds[at] {
		at++
	}
	m.times[call].counts[at].Add(1)
	m.times[call].nanoseconds.Add(uint64(elapsed))
}

// failed counts a request that got no decision, by why.
func (m *metrics) failed(why string) {
	m.lock.Lock()
	defer m.lock.Unlock()
	m.failures[why]++
}

// erred counts a policy that failed.
func (m *metrics) erred(it failedPolicy) {
	m.lock.Lock()
	defer m.lock.Unlock()
	if _, isKnown := m.erring[it]; !isKnown && len(m.erring) >= countedPolicies {
		it.Policy = "(others)"
	}
	m.erring[it]++
}

// Gauges are what is read when the metrics are written, and not counted.
type gauges struct {
	version     *version
	connections int
	logFailures uint64
	failing     []failing
}

// A failing says whether what was read last of something that may change could not be used.
type failing struct {
	what string
	isSo bool
}

// write writes all counters.
func (m *metrics) write(to io.Writer, now gauges) {
	v := now.version
	counter(to, "decisions_total", "Answered requests, by decision.", "counter")
	sample(to, "decisions_total", `decision="allow"`, m.allowed.Load())
	sample(to, "decisions_total", `decision="deny"`, m.denied.Load())
	counter(to, "refusals_total", "Refused requests, by the number of docs/REFUSALS.md.", "counter")
	for at := range m.refusals {
		if count := m.refusals[at].Load(); count > 0 {
			sample(to, "refusals_total", fmt.Sprintf(`number="%d"`, at), count)
		}
	}
	m.writeMaps(to)
	m.writeTimes(to)
	counter(to, "publications_total", "Versions that were published or refused, with those of files that changed.", "counter")
	sample(to, "publications_total", `result="published"`, m.published.Load())
	sample(to, "publications_total", `result="refused"`, m.publishRefused.Load()+m.reloadRefused.Load())
	one(to, "patches_total", "Versions that PATCH made, each also a publication.", "counter", m.patched.Load())
	one(to, "compactions_total", "How often the entities were written anew, since much was kept of changes.", "counter", m.compacted.Load())
	one(to, "version", "The number of the current version.", "gauge", v.number)
	counter(to, "version_info", "The digest of the current version.", "gauge")
	sample(to, "version_info", fmt.Sprintf("digest=%q", v.digest), 1)
	one(to, "connections", "Open connections of the listener for requests.", "gauge", uint64(now.connections))
	one(to, "connections_turned_away_total", "Connections that were closed at the limit.", "counter", m.turnedAway.Load())
	one(to, "decision_log_failures_total", "Writes to the decision log that failed.", "counter", now.logFailures)
	counter(to, "last_publish_timestamp_seconds", "When the current version was published, in seconds since 1970.", "gauge")
	fmt.Fprintf(to, "cedar_agent_last_publish_timestamp_seconds %.3f\n", float64(v.published.UnixMilli())/1000)
	counter(to, "reload_failing", "1 where what was read last could not be used, and what was there before still is.", "gauge")
	for _, it := range now.failing {
		value := uint64(0)
		if it.isSo {
			value = 1
		}
		sample(to, "reload_failing", fmt.Sprintf("what=%q", it.what), value)
	}
	writeProcess(to)
	writeGo(to)
}

// writeMaps writes the counters by name.
func (m *metrics) writeMaps(to io.Writer) {
	m.lock.Lock()
	defer m.lock.Unlock()
	counter(to, "erring_total", "Policies that failed and were skipped, by id.", "counter")
	lines := []string{}
	for it, count := range m.erring {
		lines = append(lines, fmt.Sprintf("cedar_agent_erring_total{policy=%s,error=%s} %d\n", label(it.Policy), label(it.Error), count))
	}
	sort.Strings(lines)
	for _, it := range lines {
		_, _ = io.WriteString(to, it)
	}
	counter(to, "failures_total", "Requests that got no decision and are not refusals, by why.", "counter")
	reasons := []string{}
	for why := range m.failures {
		reasons = append(reasons, why)
	}
	sort.Strings(reasons)
	for _, why := range reasons {
		sample(to, "failures_total", "reason="+label(why), m.failures[why])
	}
}

// writeTimes writes the histograms.
func (m *metrics) writeTimes(to io.Writer) {
	counter(to, "request_seconds", "The time of requests, from the end of their headers to the last byte of the answer.", "histogram")
	for call, name := range callNames {
		count := uint64(0)
		for at, bound := range timeBounds {
			count += m.times[call].counts[at].Load()
			sample(to, "request_seconds_bucket", fmt.Sprintf(`call="%s",le="%g"`, name, bound), count)
		}
		count += m.times[call].counts[len(timeBounds)].Load()
		sample(to, "request_seconds_bucket", fmt.Sprintf(`call="%s",le="+Inf"`, name), count)
		fmt.Fprintf(to, "cedar_agent_request_seconds_sum{call=%q} %g\n", name, time.Duration(m.times[call].nanoseconds.Load()).Seconds())
		sample(to, "request_seconds_count", fmt.Sprintf("call=%q", name), count)
	}
}

// head writes the head of a metric.
func head(to io.Writer, name, help, kind string) {
	fmt.Fprintf(to, "# HELP %s %s\n# TYPE %s %s\n", name, help, name, kind)
}

// plain writes a metric of any process, without labels.
func plain(to io.Writer, name, help, kind string, value uint64) {
	head(to, name, help, kind)
	fmt.Fprintf(to, "%s %d\n", name, value)
}

// counter writes the head of a metric of the agent.
func counter(to io.Writer, name, help, kind string) {
	head(to, "cedar_agent_"+name, help, kind)
}

// sample writes a value of a metric.
func sample(to io.Writer, name, labels string, value uint64) {
	fmt.Fprintf(to, "cedar_agent_%s{%s} %d\n", name, labels, value)
}

// one writes a metric of the agent without labels.
func one(to io.Writer, name, help, kind string, value uint64) {
	plain(to, "cedar_agent_"+name, help, kind, value)
}

// label gives the text of a label: Prometheus escapes a quote, a backslash and a line feed, and nothing else.
func label(text string) string {
	quoted := []byte{'"'}
	for at := 0; at < len(text); at++ {
		switch text[at] {
		case '\n':
			quoted = append(quoted, `\n`...)
		case '"', '\\':
			quoted = append(quoted, '\\', text[at])
		default:
			quoted = append(quoted, text[at])
		}
	}
	return string(append(quoted, '"'))
}
