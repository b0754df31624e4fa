package main

// The agent: what all calls share.

import (
	"net/http"
	"sync/atomic"
	"time"

	"bobbinjade"
)

// agent answers the calls of both listeners. Any number of goroutines may use it.
type agent struct {
	store      store
	reloader   *reloader
	guard      guard
	tls        certificates
	watched    []*watched // what is read again beside the files of the engine
	metrics    *metrics
	log        *logger
	decisions  *decisionLog
	mapping    *mapping // nil where the path for ext_authz is off
	namesIDs   bool     // whether the answer to ext_authz has a header with the ids of policies
	one, lines question // how one request is answered, and request lines
	words      phraser
	limits     limits
	validating chan struct{} // a place for each validation that runs
	isPublic   bool          // whether all may validate
	profiles   bool          // whether the profiles of Go are served
	public     *connections
	isStopping atomic.Bool
	hasFreed   atomic.Bool // whether much memory was freed that was not given back to the system
}

// newAgent reads the files, and publishes them as the first version.
func newAgent(settings *config, log *logger) (*agent, error) {
	it := &agent{metrics: newMetrics(), log: log, limits: settings.limits, validating: make(chan struct{}, settings.limits.validations)}
	it.isPublic, it.profiles, log.isDebug = settings.isPublic, settings.hasProfiles, settings.isDebug
	it.one, it.lines, it.words.phrase = oneRequest, requestLines, (*bobbinjade.Engine).ExplainLine
	if settings.hasEntities {
		it.one, it.lines, it.words.phrase = oneWithEntities, linesWithEntities, wordsWithEntities
	}
	it.namesIDs, it.words.isOff = settings.namesIDs, settings.hasNoWords
	it.reloader = newReloader(it, settings)
	var err error
	if it.mapping, err = readMapping(settings.extAuthz); err != nil {
		return nil, err
	}
	if err := it.readSecrets(settings); err != nil {
		return nil, err
	}
	if err := it.reloader.start(); err != nil {
		return nil, err
	}
	if it.decisions, err = openDecisionLog(settings); err != nil {
		return nil, err
	}
	return it, nil
}

// readSecrets reads who may call the listener of --admin, and certificates.
func (a *agent) readSecrets(settings *config) error {
	a.guard.users = settings.users
	if settings.adminToken != "" {
		it, err := watch("token", func() error { return a.guard.useToken(settings.adminToken) }, settings.adminToken)
		if err != nil {
			return err
		}
		a.watched = append(a.watched, it)
	}
	if a.tls.paths = settings.tls; a.tls.paths.key != "" {
		it, err := watch("certificate", a.tls.use, a.tls.paths.list()...)
		if err != nil {
			return err
		}
		a.watched = append(a.watched, it)
	}
	return nil
}

// published counts and logs a version.
func (a *agent) published(v *version, took time.Duration) {
	a.metrics.published.Add(1)
	a.hasFreed.Store(true)
	level := "info"
	if v.source == sourcePatch {
		a.metrics.patched.Add(1)
		level = "debug"
	}
	a.log.event(level, "published", number("version", v.number), text("digest", v.digest), text("source", v.source),
		seconds("seconds", took))
}

// close writes what logs still have. The engine is freed with the process.
func (a *agent) close() {
	a.decisions.close()
	a.log.flush()
}

// count counts the answer lines of a request, and logs them where that is wanted.
func (a *agent) count(v *version, request, answers []byte, of *decided) {
	a.decisions.add(v, request, answers, of)
	var found tally
	for len(answers) > 0 {
		line := nextLine(answers)
		answers = answers[len(line):]
		if line[len(line)-1] == '\n' {
			line = line[:len(line)-1]
		}
		what, number := outcomeOf(line)
		if what == refused && !found.refuse(number) {
			a.countRefused(v, number, 1)
		}
		found.outcomes[what]++
		for _, failed := range failedPolicies(line, what) {
			a.metrics.erred(failed)
			a.log.repeat(repeat{event: "erring", name: failed.Policy, why: failed.Error, version: v.number}, 1)
		}
	}
	addSome(&a.metrics.allowed, found.outcomes[allowed])
	addSome(&a.metrics.denied, found.outcomes[denied])
	for _, it := range found.refused[:found.numbers] {
		a.countRefused(v, it.number, it.count)
	}
}

// countRefused counts refused requests of a number.
func (a *agent) countRefused(v *version, number int, count uint64) {
	a.metrics.refusals[number].Add(count)
	a.log.repeat(repeat{event: "refused", name: decimal(number), version: v.number}, count)
}

// addSome adds to a counter that many threads share only where there is something to add.
func addSome(to *atomic.Uint64, count uint64) {
	if count > 0 {
		to.Add(count)
	}
}

// versionHeader says which version answered.
func versionHeader(w http.ResponseWriter, v *version) {
	w.Header()["Cedar-Version"] = v.header
}
