// Command cedar-agent answers authorization requests over HTTP, according to files that it publishes to the engine of this project.
//
//	cedar-agent --schema schema.json --policies policies.cedar --entities entities.json --listen 127.0.0.1:8180
//
// This file begins and ends the process. The exit statuses are those of the help.
package main

import (
	"errors"
	"flag"
	"fmt"
	"io"
	"os"
	"os/signal"
	"runtime/debug"
	"strings"
	"syscall"

	"bobbinjade"
)

// The exit statuses of the process.
const (
	statusDone    = 0
	statusFailed  = 1
	statusUsage   = 2
	statusRefused = 3
)

// The least call stack of a thread, in bytes: publishing and explaining need up to 512 KiB (docs/EMBEDDING.md).
const leastStack = 1 << 20

func main() {
	os.Exit(run(os.Args[1:], os.Stdout, os.Stderr))
}

// run is the process: it gives the exit status.
func run(words []string, output, errorOutput io.Writer) int {
	settings, err := parseConfig(words)
	if errors.Is(err, flag.ErrHelp) {
		fmt.Fprint(output, usage())
		return statusDone
	}
	if err != nil {
		fmt.Fprintf(errorOutput, "cedar-agent: %v\nSee cedar-agent --help.\n", err)
		return statusUsage
	}
	if settings.isVersion {
		return printVersion(output, errorOutput)
	}
	if err := checkStack(); err != nil {
		fmt.Fprintln(errorOutput, "cedar-agent:", err)
		return statusFailed
	}
	if os.Getenv("GOGC") == "" {
		// Requests leave little behind, so the collector of Go may run four times less often than it would.
		debug.SetGCPercent(400)
	}
	limitArenas()
	return serveUntilSignal(settings, errorOutput)
}

// printVersion prints the version of the engine.
func printVersion(output, errorOutput io.Writer) int {
	version, err := bobbinjade.Version()
	if err != nil {
		fmt.Fprintln(errorOutput, "cedar-agent:", err)
		return statusFailed
	}
	fmt.Fprintln(output, "cedar-agent", version)
	return statusDone
}

// checkStack fails where threads have a smaller call stack than the deepest files need. The C library gives a thread the stack of the
// limit, and 2 MiB where there is not a limit.
func checkStack() error {
	var limit syscall.Rlimit
	if err := syscall.Getrlimit(syscall.RLIMIT_STACK, &limit); err != nil {
		return fmt.Errorf("the limit of the call stack cannot be read: %w", err)
	}
	if limit.Cur < leastStack {
		return fmt.Errorf("threads have too small a call stack: run `ulimit -s 8192` before")
	}
	return nil
}

// serveUntilSignal serves until SIGTERM or SIGINT.
func serveUntilSignal(settings *config, errorOutput io.Writer) int {
	log := newLogger(errorOutput)
	it, err := newAgent(settings, log)
	if err != nil {
		return startFailed(err, errorOutput)
	}
	servers, err := listenAll(it, settings)
	if err != nil {
		fmt.Fprintln(errorOutput, "cedar-agent:", err)
		return statusFailed
	}
	signals := make(chan os.Signal, 4)
	signal.Notify(signals, syscall.SIGTERM, syscall.SIGINT, syscall.SIGHUP, syscall.SIGUSR1)
	defer signal.Stop(signals)
	hangups, ends := make(chan struct{}, 1), make(chan struct{}, 2)
	go sortSignals(signals, it.decisions, hangups, ends)
	isClean := servers.serve(hangups, ends)
	it.close()
	if !isClean {
		log.event("error", "stopped", text("why", "requests were cut off, or a listener failed"))
		return statusFailed
	}
	log.event("info", "stopped")
	return statusDone
}

// sortSignals opens the decision log anew at SIGUSR1, passes SIGHUP on to reload, and the others to end.
func sortSignals(signals <-chan os.Signal, decisions *decisionLog, hangups, ends chan<- struct{}) {
	for it := range signals {
		if it == syscall.SIGUSR1 {
			decisions.reopen()
			continue
		}
		to := ends
		if it == syscall.SIGHUP {
			to = hangups
		}
		select {
		case to <- struct{}{}:
		default:
		}
	}
}

// startFailed says why nothing is served, and gives the exit status.
func startFailed(err error, errorOutput io.Writer) int {
	var refusal *bobbinjade.Refusal
	var faults *bobbinjade.Faults
	switch {
	case errors.As(err, &refusal):
		fmt.Fprintf(errorOutput, "%s\n", strings.TrimSpace(refusal.Words))
		return statusRefused
	case errors.As(err, &faults):
		fmt.Fprintf(errorOutput, "%s\n", strings.TrimSpace(faults.Words))
		return statusRefused
	case errors.Is(err, errMapping):
		fmt.Fprintln(errorOutput, "cedar-agent:", err)
		return statusUsage
	}
	fmt.Fprintln(errorOutput, "cedar-agent:", err)
	return statusFailed
}
