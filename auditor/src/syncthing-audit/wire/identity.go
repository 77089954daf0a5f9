package wire

import (
	"crypto/sha256"
	"crypto/tls"
	"encoding/binary"
	"errors"
	"fmt"
	"io/fs"
	"os"
	"path/filepath"
	"syscall"

	"github.com/syncthing/syncthing/lib/protocol"
	"github.com/syncthing/syncthing/lib/tlsutil"
	"syncthing-audit/leftover"
)

// The files of an observer's directory, named as in Syncthing's homes.
const (
	nameOfCertificate = "cert.pem"
	nameOfKey         = "key.pem"
)

// commonName is the name that Syncthing asks of a device's certificate, and daysOfCertificate how long it is good.
const (
	commonName        = "syncthing"
	daysOfCertificate = 20 * 365
)

// Observer is a device with a key of its own that keeps no files.
type Observer struct {
	ID          protocol.DeviceID
	certificate tls.Certificate
}

// Create makes an observer's directory with a new key. A directory that is there must be this user's alone. A certificate that is there
// stays, so the observer's id never changes by itself.
func Create(directory string) (*Observer, error) {
	if err := os.Mkdir(directory, 0o700); err != nil && !errors.Is(err, fs.ErrExist) {
		return nil, fmt.Errorf("%w: %v", BadDirectory, err)
	}
	if err := checkPrivate(directory); err != nil {
		return nil, err
	}
	if _, err := os.Lstat(filepath.Join(directory, nameOfCertificate)); err == nil {
		return Open(directory)
	}
	if err := makeKey(directory); err != nil {
		return nil, fmt.Errorf("%w: %v", BadDirectory, err)
	}
	return Open(directory)
}

// makeKey makes a key and its certificate. The certificate gets its name last: a run that was killed leaves no half of them.
func makeKey(directory string) error {
	room, err := os.MkdirTemp(directory, "new-")
	if err != nil {
		return err
	}
	defer os.RemoveAll(room)
	if _, err := tlsutil.NewCertificate(filepath.Join(room, nameOfCertificate), filepath.Join(room, nameOfKey), commonName, daysOfCertificate); err != nil {
		return err
	}
	if err := leftover.Sync(room); err != nil {
		return err
	}
	for _, name := range []string{nameOfKey, nameOfCertificate} {
		if err := os.Rename(filepath.Join(room, name), filepath.Join(directory, name)); err != nil {
			return err
		}
	}
	return nil
}

// Open opens an observer's directory. It makes nothing.
func Open(directory string) (*Observer, error) {
	if err := checkPrivate(directory); err != nil {
		return nil, err
	}
	certificate, err := tls.LoadX509KeyPair(filepath.Join(directory, nameOfCertificate), filepath.Join(directory, nameOfKey))
	if err != nil {
		return nil, fmt.Errorf("%w: %v", BadDirectory, err)
	}
	return &Observer{ID: protocol.NewDeviceID(certificate.Certificate[0]), certificate: certificate}, nil
}

// checkPrivate refuses a directory that isn't this user's alone: who has the key is the observer for all devices.
func checkPrivate(directory string) error {
	about, err := os.Lstat(directory)
	switch {
	case err != nil:
		return fmt.Errorf("%w: %v", BadDirectory, err)
	case !about.IsDir():
		return fmt.Errorf("%w: %s is no directory", BadDirectory, directory)
	case about.Mode().Perm()&0o077 != 0:
		return fmt.Errorf("%w: others may enter %s (chmod 700)", BadDirectory, directory)
	case about.Sys().(*syscall.Stat_t).Uid != uint32(os.Geteuid()):
		return fmt.Errorf("%w: %s is another user's", BadDirectory, directory)
	}
	return nil
}

// indexID gives the observer's index id for a folder, always the same: a device that sees a new one drops what it had, and logs that.
func (o *Observer) indexID(folder string) uint64 {
	sum := sha256.Sum256(append(o.ID[:], folder...))
	return binary.BigEndian.Uint64(sum[:]) | 1 // never 0, which is no index id
}

// tls gives how the observer speaks TLS: as Syncthing does, where the certificate's hash is the device id.
func (o *Observer) tls() *tls.Config {
	return &tls.Config{Certificates: []tls.Certificate{o.certificate}, NextProtos: []string{"bep/1.0"}, ClientAuth: tls.RequireAnyClientCert,
		SessionTicketsDisabled: true, InsecureSkipVerify: true, MinVersion: tls.VersionTLS12}
}
