package rest

import (
	"context"
	"crypto/sha256"
	"crypto/tls"
	"crypto/x509"
	"errors"
	"fmt"
	"io"
	"net"
	"net/http"
	"net/url"
	"os"
	"strings"
	"time"

	"syncthing-audit/configured"
	"syncthing-audit/limits"
	"syncthing-audit/listening"
	"syncthing-audit/part"
	"syncthing-audit/shell"
)

// Remote is a Syncthing wherever somebody says that it is: its REST API's address, its key and, with TLS, the certificate that it has.
type Remote struct {
	Address     string // HOST:PORT
	Key         string
	Certificate *[sha256.Size]byte // its SHA-256; nothing without TLS, which only goes to an address of this machine
}

// AskedOf is what a Syncthing says of a folder.
type AskedOf struct {
	Configured configured.Folder
	Devices    []configured.Device
	Rest       part.Rest
}

// Check says why whoever answers isn't seen to be this device.
func (r *Remote) Check(device string) error {
	var said struct {
		ID string `json:"myID"`
	}
	if err := r.get("system/status", &said); err != nil {
		return err
	}
	if said.ID != device {
		return errors.New("another device answers there")
	}
	return nil
}

// Folders gives what is configured of all folders.
func (r *Remote) Folders() ([]configured.Folder, error) {
	var folders []configured.Folder
	err := r.get("config/folders", &folders)
	return folders, err
}

// Ask asks what is configured of a folder, and what Syncthing does with it.
func (r *Remote) Ask(folder string) (*AskedOf, error) {
	asked := &AskedOf{}
	if err := r.get("config/folders/"+url.PathEscape(folder), &asked.Configured); err != nil {
		return nil, err
	}
	if asked.Configured.ID != folder {
		return nil, errors.New("it answers for another folder")
	}
	if err := r.get("config/devices", &asked.Devices); err != nil {
		return nil, err
	}
	rest, err := r.rest(folder)
	asked.Rest = rest
	return asked, err
}

// rest says how Syncthing is seen with a folder now, and what it still needs.
func (r *Remote) rest(folder string) (part.Rest, error) {
	said, err := statusOf(folder, r.get)
	if err != nil {
		return part.Rest{}, err
	}
	rest := part.Rest{State: limits.Cut(said.state()), Why: limits.Cut(said.Error), Wanted: &part.Wanted{Count: part.Count{Names: said.Names, Bytes: said.Bytes}, Errors: said.Errors}}
	if rest.State == "" {
		rest.State = part.RestPaused
	}
	if said.Names < 0 || said.Bytes < 0 || said.Errors < 0 {
		return part.Rest{}, errors.New("it says that it needs fewer than no names")
	}
	if said.Errors > 0 {
		rest.Wanted.First, err = r.errors(folder, said.Errors)
	}
	return rest, err
}

// errors gives the first errors of a folder, of so many.
func (r *Remote) errors(folder string, count int64) ([]part.NameError, error) {
	var said struct {
		Errors []struct {
			Path  string `json:"path"`
			Error string `json:"error"`
		} `json:"errors"`
	}
	if err := r.get("folder/errors?"+url.Values{"folder": {folder}, "page": {"1"}, "perpage": {fmt.Sprint(part.MostErrors)}}.Encode(), &said); err != nil {
		return nil, err
	}
	failures := []part.NameError{}
	for _, failure := range said.Errors {
		if len(failures) < part.MostErrors && int64(len(failures)) < count {
			failures = append(failures, part.NameError{Name: part.Bytes(limits.Cut(failure.Path)), Why: limits.Cut(failure.Error)})
		}
	}
	return failures, nil
}

// Local says under which sequence Syncthing's own index has a name, and with which version: of each device that changed it the first seven letters of its
// id, a colon and a number.
func (r *Remote) Local(folder, name string) (int64, []string, error) {
	var said struct {
		Local struct {
			Sequence int64    `json:"sequence"`
			Version  []string `json:"version"`
		} `json:"local"`
	}
	err := r.get("db/file?"+url.Values{"folder": {folder}, "file": {name}}.Encode(), &said)
	return said.Local.Sequence, said.Local.Version, err
}

// Scan has Syncthing scan a folder, and waits until that is done.
func (r *Remote) Scan(folder string) error {
	answer, err := r.ask(http.MethodPost, "db/scan?"+url.Values{"folder": {folder}}.Encode(), longestScan)
	if err != nil {
		return fmt.Errorf("folder %s isn't scanned: %w", shell.Quoted(folder), err)
	}
	defer answer.Body.Close()
	if answer.StatusCode != http.StatusOK {
		text, _ := io.ReadAll(io.LimitReader(answer.Body, 1000))
		return fmt.Errorf("folder %s isn't scanned: Syncthing answers %s: %s", shell.Quoted(folder), answer.Status, strings.TrimSpace(string(text)))
	}
	return nil
}

// get reads what Syncthing says of itself.
func (r *Remote) get(what string, into any) error {
	answer, err := r.ask(http.MethodGet, what, atOnce)
	if err != nil {
		return err
	}
	switch answer.StatusCode {
	case http.StatusForbidden, http.StatusUnauthorized:
		answer.Body.Close()
		return fmt.Errorf("it doesn't take the API key (%s)", answer.Status)
	case http.StatusMovedPermanently, http.StatusFound, http.StatusTemporaryRedirect, http.StatusPermanentRedirect:
		answer.Body.Close()
		return errors.New("it leads elsewhere, to where the API key isn't sent: its page takes https alone, say")
	}
	return readAnswer(answer, into)
}

// ask asks Syncthing, at its own address alone.
func (r *Remote) ask(method, what string, most time.Duration) (*http.Response, error) {
	scheme := "http"
	if r.Certificate != nil {
		scheme = "https"
	}
	asked, err := http.NewRequest(method, scheme+"://"+r.Address+"/rest/"+what, nil)
	if err != nil {
		return nil, err
	}
	asked.Header.Set("X-API-Key", r.Key)
	answer, err := (&http.Client{Transport: r.transport(), Timeout: most, CheckRedirect: stay}).Do(asked)
	var outer *url.Error
	if errors.As(err, &outer) { // it names the whole question
		err = outer.Err
	}
	return answer, err
}

// transport gives how this Syncthing is spoken to: with TLS by its certificate, and else on this machine alone, where no other user listens. No proxy
// is asked.
func (r *Remote) transport() *http.Transport {
	return &http.Transport{
		DisableKeepAlives: true,
		DialContext:       func(ctx context.Context, _, _ string) (net.Conn, error) { return r.dial(ctx) },
		TLSClientConfig:   &tls.Config{InsecureSkipVerify: true, VerifyPeerCertificate: r.checkCertificate}, // it is signed by itself
	}
}

// checkCertificate says whether whoever answers hasn't the certificate that was named.
func (r *Remote) checkCertificate(raw [][]byte, _ [][]*x509.Certificate) error {
	if len(raw) == 0 || sha256.Sum256(raw[0]) != *r.Certificate {
		return errors.New("whoever answers there has another certificate than the one that is named")
	}
	return nil
}

// dial connects with Syncthing.
func (r *Remote) dial(ctx context.Context) (net.Conn, error) {
	connection, err := (&net.Dialer{}).DialContext(ctx, "tcp", r.Address)
	if err != nil || r.Certificate != nil {
		return connection, err
	}
	if err := checkOwn(connection.RemoteAddr()); err != nil {
		connection.Close()
		return nil, fmt.Errorf("%w: %v", ErrStranger, err)
	}
	return connection, nil
}

// checkOwn says why an address isn't one of this machine at which nobody but this user and root listens.
func checkOwn(at net.Addr) error {
	there, is := at.(*net.TCPAddr)
	if !is || !there.IP.IsLoopback() {
		return fmt.Errorf("%s isn't this machine, and http has the key seen on the way", at)
	}
	found, err := listening.At(there)
	if err == nil && len(found) == 0 {
		err = errNoneListed
	}
	if err != nil {
		return fmt.Errorf("it isn't seen whose program listens at %s: %v", at, err)
	}
	for _, socket := range found {
		if socket.User != os.Getuid() && socket.User != 0 {
			return fmt.Errorf("a program of user %d listens at %s: with https its certificate shows whose that is", socket.User, at)
		}
	}
	return nil
}
