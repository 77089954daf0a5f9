// Package rest asks a running Syncthing for what a person would ask it for. Nothing that a verdict says comes from here.
package rest

import (
	"bytes"
	"context"
	"crypto/tls"
	"crypto/x509"
	"encoding/json"
	"encoding/pem"
	"errors"
	"fmt"
	"io"
	"net"
	"net/http"
	"net/url"
	"path/filepath"
	"strings"
	"time"

	"github.com/syncthing/syncthing/lib/config"
	"syncthing-audit/regular"
	"syncthing-audit/shell"
)

// TimeBetweenQuestions is how long to wait before a Syncthing is asked anew that wasn't idle.
const TimeBetweenQuestions = 500 * time.Millisecond

// Syncthing is that of a home.
type Syncthing struct {
	Home string
	Data string // the directory with its index; nothing where that is the home
	GUI  config.GUIConfiguration
}

// data gives the directory with the index.
func (s Syncthing) data() string {
	if s.Data == "" {
		return s.Home
	}
	return s.Data
}

// Scan has Syncthing scan a folder, and waits until that is done.
func (s Syncthing) Scan(folder, label string) error {
	called := shell.Folder(folder, label)
	answer, err := s.ask(http.MethodPost, "db/scan?"+url.Values{"folder": {folder}}.Encode(), longestScan)
	if isLate(err) {
		return fmt.Errorf("folder %s isn't scanned: Syncthing wasn't done in %v. See on its page what it does, or audit without --rescan", called, longestScan)
	}
	if err != nil {
		return fmt.Errorf("folder %s isn't scanned: does Syncthing run there? %w", called, err)
	}
	defer answer.Body.Close()
	if answer.StatusCode == http.StatusForbidden || answer.StatusCode == http.StatusUnauthorized {
		return fmt.Errorf("folder %s isn't scanned: Syncthing doesn't take the API key of %s (%s): restart it if that file was changed, "+
			"and see that no other Syncthing listens at %s", called, filepath.Join(s.Home, "config.xml"), answer.Status, s.GUI.Address())
	}
	if answer.StatusCode != http.StatusOK {
		text, _ := io.ReadAll(io.LimitReader(answer.Body, 1000))
		return fmt.Errorf("folder %s isn't scanned (%s), and Syncthing says: %s. See to that on its page, or audit without --rescan", called, answer.Status,
			strings.TrimSpace(string(text)))
	}
	return nil
}

// Syncthing answers a question at once, and a scan takes its time, though not more than a day. Tests don't wait so long.
var (
	atOnce      = 20 * time.Second
	longestScan = 24 * time.Hour
)

// isLate says whether an answer didn't come in time.
func isLate(err error) bool {
	var failed net.Error
	return errors.As(err, &failed) && failed.Timeout()
}

// DataDirectory gives the directory in which Syncthing has its database.
func (s Syncthing) DataDirectory() (string, error) {
	var paths map[string]string
	if err := s.get("system/paths", &paths); err != nil {
		return "", err
	}
	if !filepath.IsAbs(paths["baseDir-data"]) {
		return "", errors.New("Syncthing doesn't say where its database is")
	}
	return paths["baseDir-data"], nil
}

// Started says when Syncthing was started.
func (s Syncthing) Started() (time.Time, error) {
	var status struct {
		StartTime time.Time `json:"startTime"`
	}
	if err := s.get("system/status", &status); err != nil {
		return time.Time{}, err
	}
	if status.StartTime.IsZero() {
		return time.Time{}, errors.New("Syncthing doesn't say when it was started")
	}
	return status.StartTime, nil
}

// State says what Syncthing does with a folder: 'idle' where it neither scans nor pulls; nothing of a folder that it has paused.
func (s Syncthing) State(folder string) (string, error) {
	status, err := statusOf(folder, s.get)
	return status.state(), err
}

// mostOfAnswer is how much is read of an answer.
const mostOfAnswer = 1 << 20

// get reads what Syncthing says of itself.
func (s Syncthing) get(what string, into any) error {
	answer, err := s.ask(http.MethodGet, what, atOnce)
	if err != nil {
		return err
	}
	return readAnswer(answer, into)
}

// readAnswer reads an answer.
func readAnswer(answer *http.Response, into any) error {
	defer answer.Body.Close()
	switch answer.StatusCode {
	case http.StatusOK:
		return json.NewDecoder(io.LimitReader(answer.Body, mostOfAnswer)).Decode(into)
	case http.StatusNotFound:
		return errors.New("this Syncthing doesn't say it, as 1.19 doesn't")
	}
	return fmt.Errorf("Syncthing answers %s", answer.Status)
}

// ask asks Syncthing.
func (s Syncthing) ask(method, what string, most time.Duration) (*http.Response, error) {
	scheme := "http"
	if s.GUI.UseTLS() {
		scheme = "https"
	}
	asked, err := http.NewRequest(method, scheme+"://localhost/rest/"+what, nil)
	if err != nil {
		return nil, err
	}
	asked.Header.Set("X-API-Key", s.GUI.APIKey)
	return (&http.Client{Transport: s.transport(), Timeout: most, CheckRedirect: stay}).Do(asked)
}

// stay follows no redirection: the key would go with it.
func stay(*http.Request, []*http.Request) error { return http.ErrUseLastResponse }

// transport gives how Syncthing is spoken to: at its own address alone, and where it is seen to be this home's, with TLS by its certificate. Each
// question has a connection of its own, which ends with the answer: one that is kept would stay open on both sides.
func (s Syncthing) transport() *http.Transport {
	return &http.Transport{
		DisableKeepAlives: true,
		DialContext:       func(ctx context.Context, _, _ string) (net.Conn, error) { return s.dial(ctx) },
		TLSClientConfig: &tls.Config{InsecureSkipVerify: true, VerifyPeerCertificate: func(raw [][]byte, _ [][]*x509.Certificate) error {
			return checkCertificate(filepath.Join(s.Home, "https-cert.pem"), raw)
		}},
	}
}

// dial connects with Syncthing.
func (s Syncthing) dial(ctx context.Context) (net.Conn, error) {
	connection, err := (&net.Dialer{}).DialContext(ctx, s.GUI.Network(), localAddress(s.GUI))
	if err != nil {
		return nil, err
	}
	if err := s.check(connection); err != nil {
		connection.Close()
		return nil, err
	}
	return connection, nil
}

// check refuses a connection by which the API key may go to somebody else. With TLS it is the certificate that shows who answers.
func (s Syncthing) check(connection net.Conn) error {
	if err := checkHere(connection.LocalAddr(), connection.RemoteAddr()); err != nil || s.GUI.UseTLS() {
		return err
	}
	return s.checkFar(connection)
}

// checkHere refuses a connection to another machine: its two ends have one address, or the far one is a loopback address.
func checkHere(near, far net.Addr) error {
	there, is := far.(*net.TCPAddr)
	if !is {
		return nil
	}
	here, is := near.(*net.TCPAddr)
	if is && (there.IP.IsLoopback() || there.IP.Equal(here.IP)) {
		return nil
	}
	return fmt.Errorf("the GUI's address in config.xml leads to %s, which isn't this machine: the API key isn't sent there", there.IP)
}

// localAddress gives the address on this machine: Syncthing may listen on all.
func localAddress(about config.GUIConfiguration) string {
	address := about.Address()
	if about.Network() == "unix" {
		return address
	}
	host, port, err := net.SplitHostPort(address)
	if err != nil {
		return address
	}
	if host == "" || net.ParseIP(host).IsUnspecified() {
		host = "localhost"
	}
	return net.JoinHostPort(host, port)
}

// checkCertificate says whether whoever answers hasn't the certificate that the home has for it.
func checkCertificate(path string, raw [][]byte) error {
	text, _, err := regular.Read(path, mostOfAnswer)
	if err != nil {
		return err
	}
	block, _ := pem.Decode(text)
	if block == nil || len(raw) == 0 || !bytes.Equal(block.Bytes, raw[0]) {
		return errors.New("whoever answers there isn't this home's Syncthing")
	}
	return nil
}
