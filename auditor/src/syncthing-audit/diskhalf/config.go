package diskhalf

import (
	"crypto/tls"
	"crypto/x509"
	"encoding/json"
	"encoding/pem"
	"encoding/xml"
	"errors"
	"fmt"
	"io"
	"net"
	"net/http"
	"net/url"
	"os"
	"path/filepath"
	"time"

	"syncthing-audit/configured"
	"syncthing-audit/directory"
	"syncthing-audit/part"
	"syncthing-audit/regular"
	"syncthing-audit/shell"
)

// configuration is what Syncthing's config.xml says, as far as it is asked.
type configuration struct {
	path    string
	Folders []configured.Folder `xml:"folder"`
	Devices []configured.Device `xml:"device"`
	GUI     struct {
		TLS     bool   `xml:"tls,attr"`
		Address string `xml:"address"`
		Key     string `xml:"apikey"`
	} `xml:"gui"`
}

// mostOfConfiguration is how long a config.xml may be.
const mostOfConfiguration = 64 << 20

// readConfiguration reads a config.xml.
func readConfiguration(path string) (*configuration, error) {
	text, _, err := regular.Read(path, mostOfConfiguration)
	if err != nil {
		return nil, err
	}
	read := &configuration{path: path}
	if err := xml.Unmarshal(text, read); err != nil {
		return nil, fmt.Errorf("%s is no config.xml of Syncthing: %w", shell.Quoted(path), err)
	}
	return read, nil
}

// tell has a part say what is configured of a folder. Another directory than that which is walked isn't the folder's.
func (c *configuration) tell(of *part.Folder, marker string) error {
	for place := range c.Folders {
		folder := &c.Folders[place]
		if folder.ID != of.ID {
			continue
		}
		if at, err := directory.Place(withHome(folder.Path)); err != nil || at != of.Directory {
			return fmt.Errorf("%s says that the folder's directory is %s, and another one is walked", shell.Quoted(c.path), shell.Quoted(folder.Path))
		}
		if err := folder.Tell(of, c.Devices); err != nil {
			return fmt.Errorf("%s: %w", shell.Quoted(c.path), err)
		}
		of.Options.IgnoresCase = directory.IgnoresCase(withHome(folder.Path), marker)
		return nil
	}
	return fmt.Errorf("%s has no folder of this id", shell.Quoted(c.path))
}

// withHome gives a configured path without its tilde.
func withHome(path string) string {
	if path != "~" && (len(path) < 2 || path[0] != '~' || path[1] != '/' && path[1] != filepath.Separator) {
		return path
	}
	home, err := os.UserHomeDir()
	if err != nil {
		return path
	}
	return filepath.Join(home, path[1:])
}

// timeToBeIdle is how long Syncthing is given to be idle. It is asked so often meanwhile.
var (
	timeToBeIdle = 20 * time.Second
	askedEach    = time.Second
)

// rest says how Syncthing is seen with a folder: idle, as soon as it is. All names were looked at once by now, so what a scan found before is in the index
// that the observer's second look is told.
func (c *configuration) rest(folder string) *part.Rest {
	for end := time.Now().Add(timeToBeIdle); ; time.Sleep(askedEach) {
		state, err := c.state(folder)
		switch {
		case err != nil:
			return &part.Rest{State: part.RestUnasked, Why: err.Error()}
		case state == part.RestIdle || time.Now().After(end):
			return &part.Rest{State: state}
		}
	}
}

// state asks Syncthing what it does with a folder.
func (c *configuration) state(folder string) (string, error) {
	client, err := c.client()
	if err != nil {
		return "", err
	}
	at := &url.URL{Scheme: "http", Host: "localhost", Path: "/rest/db/status", RawQuery: url.Values{"folder": {folder}}.Encode()}
	if c.GUI.TLS {
		at.Scheme = "https"
	}
	answer, err := client.Do(&http.Request{Method: http.MethodGet, URL: at, Header: http.Header{"X-Api-Key": {c.GUI.Key}}})
	if err != nil {
		return "", err
	}
	defer answer.Body.Close()
	if answer.StatusCode != http.StatusOK {
		return "", fmt.Errorf("Syncthing answers %s", answer.Status)
	}
	var status struct {
		State string `json:"state"`
	}
	err = json.NewDecoder(io.LimitReader(answer.Body, 1<<20)).Decode(&status)
	if err == nil && status.State == "" {
		err = errors.New("Syncthing doesn't say what it does there")
	}
	return status.State, err
}

// client gives what asks Syncthing at the configured address. The API key goes to this machine alone, and to no other program than the one with the
// configuration's own certificate, where its page has one.
func (c *configuration) client() (*http.Client, error) {
	host, port, err := net.SplitHostPort(c.GUI.Address)
	if err != nil {
		return nil, errors.New("its page has no address of this machine")
	}
	switch address := net.ParseIP(host); {
	case host == "localhost", host == "", address != nil && address.IsUnspecified():
		host = "127.0.0.1"
	case address == nil || !address.IsLoopback():
		return nil, errors.New("its page has no address of this machine")
	}
	transport := &http.Transport{DisableKeepAlives: true, Dial: func(string, string) (net.Conn, error) { return c.dial(net.JoinHostPort(host, port)) }}
	if c.GUI.TLS {
		certificate, err := c.certificate()
		if err != nil {
			return nil, err
		}
		transport.TLSClientConfig = &tls.Config{InsecureSkipVerify: true, VerifyPeerCertificate: certificate.isThat} // it is signed by itself
	}
	return &http.Client{Transport: transport, Timeout: timeToBeIdle, CheckRedirect: func(*http.Request, []*http.Request) error { return http.ErrUseLastResponse }}, nil
}

// dial connects with Syncthing. Without TLS the far end isn't another user's.
func (c *configuration) dial(address string) (net.Conn, error) {
	conn, err := net.DialTimeout("tcp", address, timeToBeIdle)
	if err != nil || c.GUI.TLS {
		return conn, err
	}
	if err := checkListener(conn, c.path); err != nil {
		conn.Close()
		return nil, err
	}
	return conn, nil
}

// pinned is a certificate that the far end has to have.
type pinned []byte

// certificate reads that of Syncthing's page.
func (c *configuration) certificate() (pinned, error) {
	text, _, err := regular.Read(filepath.Join(filepath.Dir(c.path), "https-cert.pem"), 1<<20)
	if err != nil {
		return nil, errors.New("its page's certificate can't be read")
	}
	block, _ := pem.Decode(text)
	if block == nil {
		return nil, errors.New("its page's certificate is none")
	}
	return block.Bytes, nil
}

// isThat says whether the far end has it.
func (p pinned) isThat(all [][]byte, _ [][]*x509.Certificate) error {
	if len(all) == 0 || string(all[0]) != string(p) {
		return errors.New("another certificate than that of its page")
	}
	return nil
}
