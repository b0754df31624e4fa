package main

// The command line: its flags, their defaults, and what is wrong with them.

import (
	"bytes"
	"errors"
	"flag"
	"fmt"
	"io"
	"strings"
	"time"

	"bobbinjade"
)

// config is what the command line says.
type config struct {
	file                      string // which has further settings
	paths                     paths
	anyDecimal                bool
	language                  uint // of the schema and the policies: 3 or 4
	listen                    string
	admin                     string
	isInsecure                bool // whether whoever reaches a port may publish
	adminToken                string
	adminUsers                string
	users                     map[uint32]bool // of adminUsers
	sockets                   struct{ listenMode, listenGroup, adminMode, adminGroup string }
	listenAccess, adminAccess access
	tls                       tlsPaths
	extAuthz                  string
	decisionLog               string
	decisionsMost             int64 // the bytes of the decision log, or 0
	decisionsOmit             string
	omitted                   omittedKeys // of decisionsOmit
	namesIDs                  bool        // whether an answer to ext_authz names policies
	hasNoWords                bool        // whether a refused request is answered with its number alone
	hasEntities               bool        // whether requests may bring entities
	isPublic                  bool        // whether /v1/validate is on the listener for requests, too
	doesReplace               bool        // whether a file that has changed replaces what calls have published
	reloadEvery               time.Duration
	drain                     time.Duration
	shutdown                  time.Duration
	limits                    limits
	hasProfiles               bool
	isDebug                   bool // whether each PATCH is logged, too
	isVersion                 bool
}

// paths are the files of an engine. That of the links is empty where there is none.
type paths struct {
	schema, policies, links, entities string
}

// list gives each file with its path, in the order in which the engine reads them.
func (p *paths) list() []namedPath {
	all := []namedPath{{bobbinjade.Schema, p.schema}, {bobbinjade.Policies, p.policies}}
	if p.links != "" {
		all = append(all, namedPath{bobbinjade.Links, p.links})
	}
	return append(all, namedPath{bobbinjade.Entities, p.entities})
}

// namedPath is a file of an engine and where it is.
type namedPath struct {
	file bobbinjade.File
	path string
}

// parseConfig reads the command line. The error is flag.ErrHelp where help is wanted.
func parseConfig(words []string) (*config, error) {
	settings := &config{}
	flags := flagsOf(settings)
	flags.SetOutput(io.Discard)
	if err := flags.Parse(words); err != nil {
		return nil, err
	}
	if flags.NArg() > 0 {
		return nil, fmt.Errorf("unexpected word %q: each setting is a flag", flags.Arg(0))
	}
	if settings.file != "" {
		if err := setFromFile(settings.file, flags); err != nil {
			return nil, err
		}
	}
	if settings.isVersion {
		return settings, nil
	}
	if settings.hasEntities && !isGiven(flags, "max-line") {
		settings.limits.line = lineWithEntities
	}
	if err := refuseEmpty(flags); err != nil {
		return nil, err
	}
	return settings, settings.check()
}

// isGiven says whether the command line or the file of --config has a flag.
func isGiven(flags *flag.FlagSet, name string) bool {
	found := false
	flags.Visit(func(it *flag.Flag) { found = found || it.Name == name })
	return found
}

// flagsOf declares the flags.
func flagsOf(settings *config) *flag.FlagSet {
	flags := flag.NewFlagSet("cedar-agent", flag.ContinueOnError)
	flags.Usage = func() {}
	flags.StringVar(&settings.file, "config", "", "a `FILE` with flags: an object of JSON with their names; those of the command line win")
	flags.StringVar(&settings.paths.schema, "schema", "", "the schema `FILE`: JSON of the format that the Cedar language defines")
	flags.StringVar(&settings.paths.policies, "policies", "", "the policies `FILE`: a text of the Cedar language")
	flags.StringVar(&settings.paths.links, "links", "", "the links `FILE`, if templates are used")
	flags.StringVar(&settings.paths.entities, "entities", "", "the entities `FILE`: JSON")
	flags.BoolVar(&settings.anyDecimal, "any-decimal", false, "accept decimal(..) of any string, which may then fail at a request")
	flags.UintVar(&settings.language, "language", uint(bobbinjade.Language3), "read schema and policies in this language: 4 is that of Cedar 4")
	settings.declareAccess(flags)
	flags.StringVar(&settings.extAuthz, "ext-authz", "", "the mapping `FILE` for Envoy's ext_authz; without it the path is off")
	flags.BoolVar(&settings.namesIDs, "ext-authz-policies", false, "say in a header of ext_authz which policies determine the answer")
	flags.BoolVar(&settings.hasEntities, "entities-in-requests", false, "a request may bring entities, which hold for it alone")
	flags.BoolVar(&settings.hasNoWords, "no-words", false, "answer a refused request with its number alone")
	flags.BoolVar(&settings.isPublic, "public-validate", false, "serve /v1/validate on --listen, too, for policies according to the current schema")
	flags.StringVar(&settings.decisionLog, "decision-log", "", "append each request and its answer to this `FILE`; without it none is logged")
	flags.Int64Var(&settings.decisionsMost, "decisions-max", 0, "at so many `BYTES` begin a new decision log, the old one is FILE.1; 0 is no limit")
	flags.StringVar(&settings.decisionsOmit, "decisions-omit", "", "leave `KEYS` of requests out of the decision log: context, principal ..")
	flags.DurationVar(&settings.reloadEvery, "reload", time.Second, "look for changed files so often; 0 is only at SIGHUP")
	flags.BoolVar(&settings.doesReplace, "reload-replaces", false, "a file that has changed replaces what calls have published in its place")
	flags.DurationVar(&settings.drain, "drain", 0, "at the end answer for so long with /readyz at 503, before listening ends")
	flags.DurationVar(&settings.shutdown, "shutdown", 10*time.Second, "wait so long for running requests at the end")
	settings.limits.declare(flags)
	flags.BoolVar(&settings.isDebug, "log-debug", false, "log what is of the level debug, too: each PATCH")
	flags.BoolVar(&settings.isVersion, "version", false, "print the version of the engine, and end")
	return flags
}

// check finds what is wrong with the flags together.
func (c *config) check() error {
	missing := []string{}
	for _, it := range c.paths.list() {
		if it.path == "" {
			missing = append(missing, "--"+it.file.String())
		}
	}
	if len(missing) > 0 {
		return errors.New("missing " + strings.Join(missing, ", "))
	}
	if c.language != uint(bobbinjade.Language3) && c.language != uint(bobbinjade.Language4) {
		return errors.New("--language is 3 or 4")
	}
	for name, address := range map[string]string{"--listen": c.listen, "--admin": c.admin} {
		if name == "--admin" && address == "" {
			continue
		}
		if err := checkAddress(address); err != nil {
			return fmt.Errorf("%s: %w", name, err)
		}
	}
	if err := c.checkAdmin(); err != nil {
		return err
	}
	if c.admin == c.listen {
		return errors.New("--admin and --listen are one address: calls that publish need a listener of their own")
	}
	if err := c.checkDecisions(); err != nil {
		return err
	}
	if c.reloadEvery < 0 || c.drain < 0 || c.shutdown < 0 {
		return errors.New("--reload, --drain and --shutdown are not negative")
	}
	if err := c.tls.check(c.listen, c.admin); err != nil {
		return err
	}
	return c.limits.check()
}

// checkDecisions finds what is wrong with the decision log.
func (c *config) checkDecisions() error {
	var err error
	if c.omitted, err = omittedKeysOf(c.decisionsOmit); err != nil {
		return err
	}
	switch {
	case c.decisionLog == "" && (c.decisionsMost != 0 || c.omitted != nil):
		return errors.New("--decisions-max and --decisions-omit need --decision-log")
	case c.decisionsMost < 0:
		return errors.New("--decisions-max is not negative")
	case c.namesIDs && c.extAuthz == "":
		return errors.New("--ext-authz-policies needs --ext-authz")
	}
	return nil
}

// usage is the help.
func usage() string {
	var text bytes.Buffer
	text.WriteString(`Answers authorization requests over HTTP, as cedar authorize answers lines

Usage: cedar-agent --schema FILE --policies FILE [--links FILE] --entities FILE [FLAGS]
       cedar-agent --config FILE [FLAGS]

Flags:
`)
	flagsOf(&config{}).VisitAll(func(it *flag.Flag) {
		name, words := flag.UnquoteUsage(it)
		if it.DefValue != "" && it.DefValue != "false" {
			words += " [default: " + it.DefValue + "]"
		}
		fmt.Fprintf(&text, "  %-30s %s\n", strings.TrimSpace("--"+it.Name+" "+name), words)
	})
	text.WriteString(`
Example:
  cedar-agent --schema schema.json --policies policies.cedar --entities entities.json &
  curl --data '{"principal":"User::\"ann\"","action":"Action::\"write\"","resource":"Notebook::\"plans\""}' \
      http://127.0.0.1:8180/v1/authorize

Signals:
  SIGHUP   read the files now, and publish those that have changed; read the token and certificates, too
  SIGUSR1  open the decision log anew, which the agent also does when it was renamed
  SIGTERM  end when the running requests are answered, as SIGINT does; a second one ends --drain, or else cuts requests off

Statuses:
  0  ended by a signal, and each request was answered
  1  a file cannot be read, an address cannot be listened at, or requests were cut off at the end
  2  the command line, the file of --config or the mapping of --ext-authz is wrong
  3  a file is refused, or the policies have faults; standard error says why
`)
	return text.String()
}
