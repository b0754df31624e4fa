package main

// Profiles: where the process spends its time and memory, with --admin-pprof on the listener for calls that publish.

import (
	"net/http"
	"net/http/pprof"
	"strings"
)

// The path before the names of profiles, as `go tool pprof` has it.
const profilesPath = "/debug/pprof/"

// writeProfile writes a profile, or the page that lists them.
func writeProfile(w http.ResponseWriter, r *http.Request) {
	switch strings.TrimPrefix(r.URL.Path, profilesPath) {
	case "cmdline":
		pprof.Cmdline(w, r)
	case "profile":
		pprof.Profile(w, r)
	case "symbol":
		pprof.Symbol(w, r)
	case "trace":
		pprof.Trace(w, r)
	default:
		pprof.Index(w, r)
	}
}
