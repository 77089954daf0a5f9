package commandline

import (
	"encoding/hex"
	"errors"
	"fmt"
	"net"
	"net/url"
	"strings"

	"github.com/syncthing/syncthing/lib/protocol"
	"syncthing-audit/rest"
)

// restAPIs are the REST APIs of devices, by their ids.
type restAPIs map[protocol.DeviceID]*rest.Remote

// apisOf is the flag of the file with the addresses and API keys of devices: who has such a key may change the device.
type apisOf struct{ read *Options }

func (r apisOf) String() string { return "" }

// Set reads the file: on each line a device's id, its page's address, its API key and, for https, the SHA-256 of its certificate.
func (r apisOf) Set(value string) error {
	lines, err := readSecret(value)
	if err != nil {
		return err
	}
	r.read.APIs = restAPIs{}
	for at, line := range lines {
		id, remote, err := remoteOf(strings.Fields(line))
		if err == nil && r.read.APIs[id] != nil {
			err = errors.New("it has the device of another line once more")
		}
		if err != nil {
			return fmt.Errorf("line %d: %w", at+1, err)
		}
		r.read.APIs[id] = remote
	}
	return nil
}

// errNoRemote says what a line is to have. What it has isn't told: a key is among that.
var errNoRemote = errors.New("it isn't DEVICE-ID https://HOST:PORT API-KEY SHA-256 or, for an address of this machine, DEVICE-ID http://HOST:PORT API-KEY")

// remoteOf reads a line.
func remoteOf(words []string) (protocol.DeviceID, *rest.Remote, error) {
	none := protocol.EmptyDeviceID
	if len(words) != 3 && len(words) != 4 {
		return none, nil, errNoRemote
	}
	id, err := protocol.DeviceIDFromString(words[0])
	if err != nil || id == none {
		return none, nil, errors.New("it doesn't begin with a device id")
	}
	at, err := url.Parse(words[1])
	if err != nil || at.Host == "" || at.Port() == "" || at.User != nil || strings.TrimSuffix(at.Path, "/") != "" || at.RawQuery != "" || at.Fragment != "" {
		return none, nil, errNoRemote
	}
	remote := &rest.Remote{Address: at.Host, Key: words[2]}
	switch {
	case at.Scheme == "https" && len(words) == 4:
		remote.Certificate, err = certificateOf(words[3])
		return id, remote, err
	case at.Scheme == "https":
		return none, nil, errors.New("https wants the SHA-256 of the device's certificate behind the key: 'openssl x509 -noout -fingerprint -sha256 -in https-cert.pem' " +
			"prints it, in the directory of its config.xml")
	case at.Scheme != "http" || len(words) == 4:
		return none, nil, errNoRemote
	}
	if host := at.Hostname(); host != "localhost" && !net.ParseIP(host).IsLoopback() {
		return none, nil, errors.New("http shows the API key to whoever is on the way: write https, which Syncthing's page takes at the same port, or the end of a tunnel on " +
			"this machine")
	}
	return id, remote, nil
}

// certificateOf reads the SHA-256 of a certificate, as openssl and browsers write it.
func certificateOf(word string) (*[32]byte, error) {
	data, err := hex.DecodeString(strings.ReplaceAll(word, ":", ""))
	if err != nil || len(data) != 32 {
		return nil, errors.New("what stands behind the key is no SHA-256 of a certificate: 64 digits and letters, with or without colons")
	}
	sum := [32]byte{}
	copy(sum[:], data)
	return &sum, nil
}
