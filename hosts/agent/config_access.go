package main

// The command line, where it says at which addresses the agent listens, and who may call there.

import (
	"errors"
	"flag"
	"fmt"
	"strings"
)

// declareAccess declares the flags of addresses, of who may call, and of certificates.
func (c *config) declareAccess(flags *flag.FlagSet) {
	flags.StringVar(&c.listen, "listen", "127.0.0.1:8180", "the `ADDRESS` for requests: HOST:PORT, or unix:PATH")
	flags.StringVar(&c.sockets.listenMode, "listen-mode", "", "the `MODE` of the socket of --listen, for example 0660")
	flags.StringVar(&c.sockets.listenGroup, "listen-group", "", "the `GROUP` of the socket of --listen, by default with the mode 0660")
	flags.StringVar(&c.admin, "admin", "", "the `ADDRESS` for calls that publish; without it there are none")
	flags.BoolVar(&c.isInsecure, "admin-insecure", false, "let whoever reaches the address of --admin publish")
	flags.StringVar(&c.adminToken, "admin-token", "", "a call of --admin needs the token that this `FILE` has, as Authorization: Bearer")
	flags.StringVar(&c.adminUsers, "admin-users", "", "the `USERS` who may call at the socket of --admin: names or numbers, with commas")
	flags.StringVar(&c.sockets.adminMode, "admin-mode", "", "the `MODE` of the socket of --admin; by default 0600, or 0660 with a group")
	flags.StringVar(&c.sockets.adminGroup, "admin-group", "", "the `GROUP` of the socket of --admin")
	flags.BoolVar(&c.hasProfiles, "admin-pprof", false, "serve the profiles of Go at /debug/pprof/ on --admin")
	flags.StringVar(&c.tls.certificate, "tls-cert", "", "the certificate `FILE` of each HOST:PORT, PEM; without it there is no TLS")
	flags.StringVar(&c.tls.key, "tls-key", "", "the `FILE` of its private key, PEM")
	flags.StringVar(&c.tls.clientAuthority, "tls-client-ca", "", "a client needs a certificate of an authority in this `FILE`, PEM")
}

// The flags that say who may call. Without them all who can connect may.
var restricting = []string{"admin-token", "admin-users", "tls-client-ca"}

// refuseEmpty refuses such a flag with an empty value, for example that of a variable that a script has not set.
func refuseEmpty(flags *flag.FlagSet) error {
	for _, name := range restricting {
		if isGiven(flags, name) && flags.Lookup(name).Value.String() == "" {
			return fmt.Errorf("--%s is empty: leave it out, or say who may call", name)
		}
	}
	return nil
}

// checkAdmin finds what is wrong with who may call.
func (c *config) checkAdmin() error {
	isSocket, isAdminSocket := strings.HasPrefix(c.listen, unixPrefix), strings.HasPrefix(c.admin, unixPrefix)
	for _, it := range []struct {
		name           string
		isGiven, isFit bool
		needs          string
	}{
		{"--listen-mode", c.sockets.listenMode != "", isSocket, "--listen unix:PATH"},
		{"--listen-group", c.sockets.listenGroup != "", isSocket, "--listen unix:PATH"},
		{"--admin-mode", c.sockets.adminMode != "", isAdminSocket, "--admin unix:PATH"},
		{"--admin-group", c.sockets.adminGroup != "", isAdminSocket, "--admin unix:PATH"},
		{"--admin-users", c.adminUsers != "", isAdminSocket, "--admin unix:PATH"},
		{"--admin-token", c.adminToken != "", c.admin != "", "--admin"},
		{"--admin-pprof", c.hasProfiles, c.admin != "", "--admin"},
	} {
		if it.isGiven && !it.isFit {
			return errors.New(it.name + " needs " + it.needs)
		}
	}
	var err error
	if c.users, err = usersOf(c.adminUsers); err != nil {
		return err
	}
	if c.listenAccess, err = accessOf(c.sockets.listenMode, c.sockets.listenGroup, 0); err != nil {
		return fmt.Errorf("--listen-mode: %w", err)
	}
	if c.adminAccess, err = accessOf(c.sockets.adminMode, c.sockets.adminGroup, privateMode); err != nil {
		return fmt.Errorf("--admin-mode: %w", err)
	}
	isGuarded := c.isInsecure || c.adminToken != ""
	switch {
	case c.admin == "" || isGuarded:
		return nil
	case !isAdminSocket:
		return fmt.Errorf("--admin: whoever reaches %s could publish: give --admin-token, use unix:PATH, or say --admin-insecure", c.admin)
	case c.adminAccess.mode&modeOfOthers != 0 && c.adminUsers == "":
		return errors.New("--admin-mode: all users of the machine could publish: give --admin-token or --admin-users, or say --admin-insecure")
	}
	return nil
}
