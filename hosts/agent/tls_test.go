package main

import (
	"crypto/ecdsa"
	"crypto/elliptic"
	"crypto/rand"
	"crypto/tls"
	"crypto/x509"
	"crypto/x509/pkix"
	"encoding/pem"
	"io"
	"math/big"
	"net/http"
	"path/filepath"
	"strings"
	"testing"
	"time"
)

// An authority issues certificates.
type authority struct {
	t           *testing.T
	key         *ecdsa.PrivateKey
	certificate *x509.Certificate
	text        string
}

func newAuthority(t *testing.T) *authority {
	it := &authority{t: t}
	template := &x509.Certificate{SerialNumber: big.NewInt(1), Subject: pkix.Name{CommonName: "authority"}, NotAfter: time.Now().Add(time.Hour),
		IsCA: true, BasicConstraintsValid: true, KeyUsage: x509.KeyUsageCertSign}
	it.key = it.newKey()
	bytes, err := x509.CreateCertificate(rand.Reader, template, template, &it.key.PublicKey, it.key)
	if err == nil {
		it.certificate, err = x509.ParseCertificate(bytes)
	}
	if err != nil {
		t.Fatal(err)
	}
	it.text = string(pem.EncodeToMemory(&pem.Block{Type: "CERTIFICATE", Bytes: bytes}))
	return it
}

func (a *authority) newKey() *ecdsa.PrivateKey {
	key, err := ecdsa.GenerateKey(elliptic.P256(), rand.Reader)
	if err != nil {
		a.t.Fatal(err)
	}
	return key
}

// issue gives a certificate with its key, for servers and clients.
func (a *authority) issue(serial int64) (string, string) {
	key := a.newKey()
	template := &x509.Certificate{SerialNumber: big.NewInt(serial), Subject: pkix.Name{CommonName: "agent"}, DNSNames: []string{"agent"},
		NotAfter: time.Now().Add(time.Hour), ExtKeyUsage: []x509.ExtKeyUsage{x509.ExtKeyUsageServerAuth, x509.ExtKeyUsageClientAuth}}
	bytes, err := x509.CreateCertificate(rand.Reader, template, a.certificate, &key.PublicKey, a.key)
	if err != nil {
		a.t.Fatal(err)
	}
	keyBytes, err := x509.MarshalECPrivateKey(key)
	if err != nil {
		a.t.Fatal(err)
	}
	return string(pem.EncodeToMemory(&pem.Block{Type: "CERTIFICATE", Bytes: bytes})),
		string(pem.EncodeToMemory(&pem.Block{Type: "EC PRIVATE KEY", Bytes: keyBytes}))
}

// trusts gives the settings of a client that trusts the authority.
func (a *authority) trusts() *tls.Config {
	pool := x509.NewCertPool()
	pool.AddCert(a.certificate)
	return &tls.Config{RootCAs: pool, ServerName: "agent"}
}

// with gives the settings of a client that has a certificate, too.
func (a *authority) with(issuer *authority) *tls.Config {
	certificate, key := issuer.issue(7)
	pair, err := tls.X509KeyPair([]byte(certificate), []byte(key))
	if err != nil {
		a.t.Fatal(err)
	}
	settings := a.trusts()
	settings.Certificates = []tls.Certificate{pair}
	return settings
}

// secureReply is an answer over TLS.
type secureReply struct {
	status    int
	body      string
	serial    int64
	isResumed bool
	version   uint16
}

// secure makes a request over TLS, on a connection of its own.
func secure(settings *tls.Config, method, url, body string) (secureReply, error) {
	client := &http.Client{Timeout: 20 * time.Second, Transport: &http.Transport{TLSClientConfig: settings, DisableKeepAlives: true}}
	request, err := http.NewRequest(method, url, strings.NewReader(body))
	if err != nil {
		return secureReply{}, err
	}
	answer, err := client.Do(request)
	if err != nil {
		return secureReply{}, err
	}
	defer answer.Body.Close()
	text, err := io.ReadAll(answer.Body)
	return secureReply{answer.StatusCode, string(text), answer.TLS.PeerCertificates[0].SerialNumber.Int64(), answer.TLS.DidResume,
		answer.TLS.Version}, err
}

// serveTLS serves examples/notes over TLS, and gives the folder of the certificates.
func serveTLS(t *testing.T, from *authority, words ...string) (*served, string) {
	folder := t.TempDir()
	certificate, key := from.issue(2)
	write(t, filepath.Join(folder, "cert.pem"), certificate)
	write(t, filepath.Join(folder, "key.pem"), key)
	return serveExample(t, "notes", append([]string{"--tls-cert", filepath.Join(folder, "cert.pem"), "--tls-key",
		filepath.Join(folder, "key.pem")}, words...)...), folder
}

func TestTLS(t *testing.T) {
	from := newAuthority(t)
	it, _ := serveTLS(t, from)
	got, err := secure(from.trusts(), "POST", "https://"+it.address+"/v1/authorize", line("ann", "write"))
	if err != nil || got.status != 200 || got.body != allowedAnswer || got.version != tls.VersionTLS13 {
		t.Error(got, err)
	}
	if got, err := secure(from.trusts(), "PUT", "https://"+it.admin+"/v1/policies", permitAll); err != nil || got.status != 200 {
		t.Error(got, err)
	}
	old := from.trusts()
	old.MinVersion, old.MaxVersion = tls.VersionTLS10, tls.VersionTLS11
	if got, err := secure(old, "GET", "https://"+it.address+"/healthz", ""); err == nil {
		t.Error("TLS 1.1 is answered", got)
	}
	old.MinVersion, old.MaxVersion = tls.VersionTLS12, tls.VersionTLS12
	if got, err := secure(old, "GET", "https://"+it.address+"/healthz", ""); err != nil || got.version != tls.VersionTLS12 {
		t.Error(got, err)
	}
	if got := it.ask(line("ann", "write")); got.status == 200 {
		t.Error("plain HTTP is answered", got)
	}
	// A client that is silent keeps nobody out, and no handshake waits for another.
	it.dial()
	if got, err := secure(from.trusts(), "GET", "https://"+it.address+"/healthz", ""); err != nil || got.status != 200 {
		t.Error(got, err)
	}
}

// Certificates are read again when their files change. Those that cannot be used change nothing.
func TestCertificatesAreReadAgain(t *testing.T) {
	from := newAuthority(t)
	it, folder := serveTLS(t, from)
	serial := func() int64 {
		got, err := secure(from.trusts(), "GET", "https://"+it.address+"/healthz", "")
		if err != nil || got.status != 200 {
			t.Error(got, err)
		}
		return got.serial
	}
	if got := serial(); got != 2 {
		t.Error(got)
	}
	certificate, key := from.issue(3)
	write(t, filepath.Join(folder, "key.pem"), key)
	eventually(t, "a key of another certificate is refused", func() bool {
		got, err := secure(from.trusts(), "GET", "https://"+it.address+"/metrics", "")
		return err == nil && strings.Contains(got.body, "cedar_agent_reload_failing{what=\"certificate\"} 1\n")
	})
	if got := serial(); got != 2 {
		t.Error(got)
	}
	write(t, filepath.Join(folder, "cert.pem"), certificate)
	eventually(t, "the other certificate is used", func() bool { return serial() == 3 })
	if !strings.Contains(it.log.String(), `"event":"reload_refused","what":"certificate"`) {
		t.Error(it.log.String())
	}
}

// With an authority for clients, those alone are answered that have a certificate of it, also after it has changed.
func TestCertificatesOfClients(t *testing.T) {
	from, clients, others := newAuthority(t), newAuthority(t), newAuthority(t)
	authorities := filepath.Join(t.TempDir(), "clients.pem")
	write(t, authorities, clients.text)
	it, _ := serveTLS(t, from, "--tls-client-ca", authorities)
	ask := func(settings *tls.Config) (secureReply, error) {
		return secure(settings, "POST", "https://"+it.address+"/v1/authorize", line("ann", "write"))
	}
	fits := from.with(clients)
	fits.ClientSessionCache = tls.NewLRUClientSessionCache(4)
	for at := 0; at < 2; at++ {
		if got, err := ask(fits); err != nil || got.body != allowedAnswer || got.isResumed != (at == 1) {
			t.Error(got, err)
		}
	}
	for name, settings := range map[string]*tls.Config{"none": from.trusts(), "of another authority": from.with(others)} {
		for _, address := range []string{it.address, it.admin} {
			if got, err := secure(settings, "GET", "https://"+address+"/healthz", ""); err == nil {
				t.Error(name, got)
			}
		}
	}
	write(t, authorities, others.text)
	eventually(t, "the other authority is used", func() bool {
		got, err := ask(from.with(others))
		return err == nil && got.body == allowedAnswer
	})
	// A session that was begun before is not resumed.
	if got, err := ask(fits); err == nil {
		t.Error(got)
	}
}

func TestWrongCertificates(t *testing.T) {
	_, files := copied(t, "notes")
	certificate, key := newAuthority(t).issue(2)
	folder := t.TempDir()
	paths := map[string]string{}
	for name, text := range map[string]string{"cert": certificate, "key": key, "none": ""} {
		paths[name] = filepath.Join(folder, name)
		write(t, paths[name], text)
	}
	for wanted, words := range map[string][]string{
		"--tls-cert, --tls-key: open /none":       {"--tls-cert", "/none", "--tls-key", paths["key"]},
		"--tls-cert, --tls-key: ":                 {"--tls-cert", paths["cert"], "--tls-key", paths["none"]},
		"has no certificate":                      {"--tls-cert", paths["cert"], "--tls-key", paths["key"], "--tls-client-ca", paths["none"]},
		"--tls-client-ca: open /none: no such fi": {"--tls-cert", paths["cert"], "--tls-key", paths["key"], "--tls-client-ca", "/none"},
	} {
		said, status := ran(t, append(append(files, "--listen", "127.0.0.1:0"), words...)...)
		if status != statusFailed || !strings.Contains(said, wanted) {
			t.Error(words, status, said)
		}
	}
}
