package main

// TLS: certificates of files, which are read again when they change. A connection has those that were current when it began.

import (
	"crypto/tls"
	"crypto/x509"
	"fmt"
	"net"
	"os"
	"strings"
	"sync/atomic"
)

// certificates are those of --tls-cert and --tls-key, and of the authority whose certificates clients need, where one is given.
type certificates struct {
	paths   tlsPaths
	current atomic.Pointer[tls.Config]
}

// tlsPaths are the files of certificates. All are empty where there is no TLS.
type tlsPaths struct {
	certificate, key, clientAuthority string
}

// check finds what is wrong with the paths together.
func (p *tlsPaths) check(addresses ...string) error {
	if (p.certificate == "") != (p.key == "") || p.clientAuthority != "" && p.key == "" {
		return fmt.Errorf("--tls-cert and --tls-key need each other, and --tls-client-ca needs both")
	}
	for _, it := range addresses {
		if p.key == "" || it != "" && !strings.HasPrefix(it, unixPrefix) {
			return nil
		}
	}
	return fmt.Errorf("--tls-cert needs a HOST:PORT: a socket of the file system has no TLS")
}

// list gives the paths that are there.
func (p *tlsPaths) list() []string {
	if p.clientAuthority == "" {
		return []string{p.certificate, p.key}
	}
	return []string{p.certificate, p.key, p.clientAuthority}
}

// use reads the files, and has later connections use them.
func (c *certificates) use() error {
	pair, err := tls.LoadX509KeyPair(c.paths.certificate, c.paths.key)
	if err != nil {
		return fmt.Errorf("--tls-cert, --tls-key: %w", err)
	}
	config := &tls.Config{Certificates: []tls.Certificate{pair}, MinVersion: tls.VersionTLS12, NextProtos: []string{"http/1.1"}}
	if c.paths.clientAuthority != "" {
		content, err := os.ReadFile(c.paths.clientAuthority)
		if err != nil {
			return fmt.Errorf("--tls-client-ca: %w", err)
		}
		config.ClientCAs, config.ClientAuth = x509.NewCertPool(), tls.RequireAndVerifyClientCert
		if !config.ClientCAs.AppendCertsFromPEM(content) {
			return fmt.Errorf("--tls-client-ca: %s has no certificate", c.paths.clientAuthority)
		}
	}
	c.current.Store(config)
	return nil
}

// over gives a listener whose connections are encrypted; it is the same one for a socket of the file system, and where there is no TLS.
func (c *certificates) over(listener net.Listener) net.Listener {
	if c.current.Load() == nil || listener.Addr().Network() == "unix" {
		return listener
	}
	return tls.NewListener(listener, &tls.Config{
		GetConfigForClient: func(*tls.ClientHelloInfo) (*tls.Config, error) { return c.current.Load(), nil },
	})
}
