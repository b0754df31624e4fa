package main

// Limits: what a client may take of the process.

import (
	"errors"
	"flag"
	"time"
)

const (
	// A body of lines up to so many bytes, whose length is given, is read whole and answered by one call.
	wholeBody = 256 << 10
	// Lines of a longer body are answered in pieces of at most so many bytes, or of one line.
	pieceSize = 64 << 10
	// The bytes of the header of a request.
	headerSize = 16 << 10
	// The time in which the header of a request arrives.
	headerTime = 5 * time.Second
	// A connection without progress for so long may be closed for a new one, where all are taken.
	stalledAfter = time.Second
	// A client sends what is to be validated, and reads the report, in so much time each.
	validationTime = 10 * time.Second
	// An answer that says that the body did not arrive in time is written in so much time.
	lateTime = 5 * time.Second
	// A request that may bring entities has at most so many bytes, unless --max-line says otherwise: a chain of groups takes some 40 bytes
	// times the square of its length.
	lineWithEntities = 64 << 10
	// The connections of the listener for calls that publish.
	adminConnections = 64
)

// limits are sizes in bytes, times and numbers.
type limits struct {
	body, line, policies, files int64
	report, schema              int64
	connections, validations    int
	time, idle, adminTime       time.Duration
	turn                        time.Duration // of a validation
}

// declare declares the flags of limits.
func (l *limits) declare(flags *flag.FlagSet) {
	flags.Int64Var(&l.line, "max-line", 256<<10, "a request has at most so many `BYTES`; by default 65536 with --entities-in-requests")
	flags.Int64Var(&l.body, "max-body", 64<<20, "the request lines of one body have together at most so many `BYTES`")
	flags.Int64Var(&l.policies, "max-policies", 1<<20, "what /v1/validate is sent has at most so many `BYTES`")
	flags.Int64Var(&l.schema, "max-schema", 256<<10, "a schema that /v1/validate is sent has at most so many `BYTES`")
	flags.Int64Var(&l.report, "max-report", 16<<20, "what /v1/validate could answer has at most so many `BYTES`")
	flags.Int64Var(&l.files, "max-files", 1<<30, "what is published over --admin has at most so many `BYTES`")
	flags.IntVar(&l.connections, "max-connections", 4096, "the `NUMBER` of open connections")
	flags.IntVar(&l.validations, "max-validations", 1, "the `NUMBER` of calls of /v1/validate that run at once; others wait; 0 is none")
	l.turn = validationTime
	flags.DurationVar(&l.time, "max-time", 30*time.Second, "a request and its answer take at most so long")
	flags.DurationVar(&l.idle, "max-idle", 2*time.Minute, "a connection is idle for at most so long")
	flags.DurationVar(&l.adminTime, "max-publish-time", 10*time.Minute, "a call of --admin takes at most so long")
}

// check finds limits that nothing could meet.
func (l *limits) check() error {
	if l.body < 1 || l.line < 1 || l.policies < 1 || l.report < 1 || l.schema < 1 || l.files < 1 || l.connections < 1 || l.validations < 0 {
		return errors.New("each --max- is at least 1, and --max-validations at least 0")
	}
	if l.time <= 0 || l.idle <= 0 || l.adminTime <= 0 {
		return errors.New("--max-time, --max-idle and --max-publish-time are more than 0")
	}
	return nil
}
