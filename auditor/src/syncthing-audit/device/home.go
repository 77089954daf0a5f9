// Package device reads the home of a stopped Syncthing device: its configuration and its index.
package device

import (
	"bytes"
	"encoding/pem"
	"encoding/xml"
	"errors"
	"fmt"
	"math"
	"os"
	"path/filepath"
	"sync"
	"syscall"
	"time"

	"github.com/syncthing/syncthing/lib/config"
	"github.com/syncthing/syncthing/lib/db"
	"github.com/syncthing/syncthing/lib/db/backend"
	"github.com/syncthing/syncthing/lib/events"
	"github.com/syncthing/syncthing/lib/protocol"
	"syncthing-audit/leftover"
	"syncthing-audit/limits"
	"syncthing-audit/part"
	"syncthing-audit/regular"
)

// databaseName is the folder of the index in a home of Syncthing 1.
const databaseName = "index-v0.14.0.db"

// indexOfTwo is the folder of the index in a home of Syncthing 2.
const indexOfTwo = "index-v2"

const (
	// leastConfig is the first version of config.xml that Syncthing's reader doesn't bring up to date by changing the folders
	// themselves.
	leastConfig = 23
	// mostConfig is that of Syncthing 1.29. The reader of 1.19, whose own version is 36, takes of it all that is read here.
	mostConfig = 37
)

// How many bytes the files of a home have at most.
const (
	mostBytesOfConfig      = 256 << 20
	mostBytesOfCertificate = 1 << 20
	mostBytesOfCurrent     = 1 << 10
	mostBytesOfRecords     = 4 << 30 // of a log or a manifest of the index
)

// Home is a stopped device's home, its index opened from a copy.
type Home struct {
	Dir    string
	data   string // where its index is; nothing where that is in Dir, too
	ID     protocol.DeviceID
	Config config.Configuration
	Copied Copied // of the index of a home whose Syncthing may run

	Syncthing  string          // the version that was started on it last
	State      *part.Index     // what may be amiss with its index
	Newer      *part.Newer     // another index, which may be the present one
	ToRepair   bool            // whether Syncthing is to repair the index at its next start
	attributes map[string]bool // folders in which scans look at them
	written    sync.Once       // whether it is known what else writes into folders
	writers    map[string][]string

	before  listing // the index before it was copied
	copied  string
	isLive  bool
	backend backend.Backend
	index   *db.Lowlevel
	times   bool // whether the index has times of files that their disks can't keep
}

// Open reads a home on which no Syncthing runs and opens a copy of its index, which is in another directory where one is named. Nothing of the home is changed.
func Open(dir, data string, maps ...Map) (*Home, error) {
	return openWith(dir, data, maps, (*Home).openIndex)
}

// openWith reads a home and has its index opened.
func openWith(dir, data string, maps Maps, open func(*Home) error) (*Home, error) {
	opened, err := readAbout(dir, maps)
	if err != nil {
		return nil, err
	}
	opened.data = data
	if err := checkOne(opened.dataDirectory()); err != nil {
		return nil, err
	}
	err = open(opened)
	if err == nil {
		opened.noteMark()
		err = opened.noteAge()
	}
	if err == nil {
		err = opened.noteNewer()
	}
	if err != nil {
		opened.Close()
		return nil, err
	}
	return opened, nil
}

// dataDirectory gives the directory in which the index is.
func (h *Home) dataDirectory() string {
	if h.data == "" {
		return h.Dir
	}
	return h.data
}

// database gives the path of the index.
func (h *Home) database() string { return filepath.Join(h.dataDirectory(), databaseName) }

// noIndex says that there is no index, and what can be done where Syncthing has it elsewhere.
func (h *Home) noIndex() error {
	return fmt.Errorf("%s: no index %s, as Syncthing 1 makes it on its first start (Syncthing 2's isn't read). Where Syncthing has its database "+
		"in another directory, as by its own --data, name that behind the home as --data DIR: %s", h.dataDirectory(), databaseName, SaysWhere)
}

// SaysWhere says how a person learns where a home and its database are. Without its own flags Syncthing says where they would be by default.
const SaysWhere = "'syncthing --paths' says where it is, with the same --home, --config and --data as where Syncthing is started"

// CheckIndex refuses a home whose index isn't where it is said to be.
func CheckIndex(dir, data string) error {
	if home := (&Home{Dir: dir, data: data}); !HasIndex(home.dataDirectory()) {
		return home.noIndex()
	}
	return nil
}

// HasIndex says whether a directory has an index, as a home has it beside its configuration.
func HasIndex(dir string) bool { return isThere(dir, databaseName) || isThere(dir, indexOfTwo) }

// readAbout reads whose home a directory is, and how it is configured. The configuration is read once: a Syncthing that runs may put another one in its
// place between.
func readAbout(dir string, maps Maps) (*Home, error) {
	id, err := readDeviceID(filepath.Join(dir, "cert.pem"))
	if err != nil {
		return nil, withHint(err)
	}
	if err := checkOne(dir); err != nil {
		return nil, err
	}
	path := filepath.Join(dir, "config.xml")
	text, _, err := regular.Read(path, mostBytesOfConfig)
	if err != nil {
		return nil, err
	}
	home := &Home{Dir: dir, ID: id}
	if home.Config, err = readConfig(path, text, id); err == nil {
		err = maps.apply(dir, &home.Config)
	}
	if err != nil {
		return nil, err
	}
	if home.attributes, err = attributesIn(text); err != nil {
		return nil, fmt.Errorf("%s: %w", path, err)
	}
	return home, nil
}

// withHint says beside why a home can't be read what that may come from.
func withHint(err error) error {
	switch {
	case errors.Is(err, os.ErrNotExist) || errors.Is(err, syscall.ENOTDIR):
		return fmt.Errorf("%w: is this a Syncthing home? %s", err, SaysWhere)
	case errors.Is(err, os.ErrPermission):
		return fmt.Errorf("%w: a home is for its own user alone: run this as the user whose Syncthing it is", err)
	}
	return err
}

// checkOne refuses a home on which Syncthing 2 ran.
func checkOne(dir string) error {
	if !isThere(dir, indexOfTwo) {
		return nil
	}
	if isThere(dir, databaseName) {
		return fmt.Errorf("refused: %s: it has an index of Syncthing 1 and one of Syncthing 2, which isn't read: if Syncthing 1 runs on it, "+
			"move %s away", dir, indexOfTwo)
	}
	return fmt.Errorf("refused: %s: its index is that of Syncthing 2 (%s), which isn't read", dir, indexOfTwo)
}

// isThere says whether something is at a place in a home.
func isThere(dir, place string) bool {
	_, err := os.Stat(filepath.Join(dir, place))
	return err == nil
}

// ReadConfig reads the configuration of a home.
func ReadConfig(dir string, maps ...Map) (config.Configuration, error) {
	_, read, err := About(dir, maps...)
	return read, err
}

// IsHome says whether a directory is a home with an index, be it one that isn't read. One that can't be looked at may be one: who reads it
// is told why.
func IsHome(dir string) bool {
	_, err := os.Stat(filepath.Join(dir, databaseName, "CURRENT"))
	return err == nil || !errors.Is(err, os.ErrNotExist) && !errors.Is(err, syscall.ENOTDIR) || isThere(dir, indexOfTwo)
}

// Name gives the device's name, as it is configured at itself.
func (h *Home) Name() string { return h.nameOf(h.ID) }

// Sharing gives the other devices that a folder is shared with, by the device's own configuration.
func (h *Home) Sharing(folder config.FolderConfiguration) []part.Sharing {
	sharing := []part.Sharing{}
	for _, other := range folder.Devices {
		if other.DeviceID != h.ID {
			sharing = append(sharing, part.Sharing{Device: other.DeviceID.String(), Name: h.nameOf(other.DeviceID), Encrypted: other.EncryptionPassword != ""})
		}
	}
	return sharing
}

// pausedOf gives the devices with which a folder is shared, and which are paused here.
func (h *Home) pausedOf(folder config.FolderConfiguration) []string {
	var devices []string
	for _, device := range h.Config.Devices {
		if device.Paused && device.DeviceID != h.ID && folder.SharedWith(device.DeviceID) {
			devices = append(devices, device.DeviceID.String())
		}
	}
	return devices
}

// nameOf gives the name that this device has for another. It may be another device's word, so one that is too long is cut.
func (h *Home) nameOf(id protocol.DeviceID) string {
	for _, device := range h.Config.Devices {
		if device.DeviceID == id {
			return limits.Cut(device.Name)
		}
	}
	return ""
}

// readDeviceID gives the device id of a certificate.
func readDeviceID(path string) (protocol.DeviceID, error) {
	text, _, err := regular.Read(path, mostBytesOfCertificate)
	if err != nil {
		return protocol.DeviceID{}, err
	}
	block, _ := pem.Decode(text)
	if block == nil || block.Type != "CERTIFICATE" {
		return protocol.DeviceID{}, fmt.Errorf("%s: no certificate", path)
	}
	return protocol.NewDeviceID(block.Bytes), nil
}

// readConfig reads a device's configuration of the text that was at a path.
func readConfig(path string, text []byte, id protocol.DeviceID) (config.Configuration, error) {
	var head struct {
		Version int `xml:"version,attr"`
	}
	if err := xml.Unmarshal(text, &head); err != nil {
		return config.Configuration{}, fmt.Errorf("%s: %w", path, err)
	}
	if head.Version > mostConfig && head.Version > config.CurrentVersion {
		return config.Configuration{}, fmt.Errorf("refused: %s: version %d is of a newer Syncthing than those that are read (up to %d)", path,
			head.Version, mostConfig)
	}
	if head.Version < leastConfig {
		return config.Configuration{}, fmt.Errorf("%s: version %d is too old (from %d on): start a newer Syncthing on it once",
			path, head.Version, leastConfig)
	}
	read, _, err := config.ReadXML(bytes.NewReader(text), id)
	if err != nil {
		return config.Configuration{}, fmt.Errorf("%s: %w", path, err)
	}
	return read, nil
}

// openIndex copies the index to a temporary folder and opens the copy.
func (h *Home) openIndex() error {
	if err := h.copyIndex(h.database()); err != nil {
		return err
	}
	if err := settle(h.copied); err != nil {
		if isFull(err) {
			return notOpened(err)
		}
		return fmt.Errorf("refused: %s: %w", h.Dir, err)
	}
	return h.openCopy()
}

// copyIndex copies the index, and has it locked as long as that takes. A Syncthing that is started meanwhile fails, and after some failures nobody
// starts it again. One that is started later opens the index, which changes its files: so it is the part that is refused then (checkUnchanged).
func (h *Home) copyIndex(database string) error {
	lock, err := lockShared(h.Dir, database)
	if errors.Is(err, os.ErrNotExist) {
		return h.noIndex()
	} else if err != nil {
		return err
	}
	defer lock.Close()
	if h.before, err = listingOf(database); err != nil {
		return err
	}
	if h.copied, err = roomFor(database); err != nil {
		return err
	}
	if err := copyFiles(database, h.copied); err != nil {
		if isFull(err) {
			return notCopied(err)
		}
		return err
	}
	return h.checkUnchanged()
}

// never says that Syncthing's package never checks a copy anew. Such a check, once a month, may give an index another id: without the ids
// parts of two moments can't be told apart.
const never = time.Duration(math.MaxInt64)

// openCopy opens the copy of the index.
func (h *Home) openCopy() error {
	var err error
	if h.backend, err = backend.Open(h.copied, tuningFor(h.copied)); err != nil {
		return notOpened(err)
	}
	if err := checkSchema(h.backend); err != nil {
		return fmt.Errorf("refused: %s: %w", h.Dir, err)
	}
	if h.Syncthing, _, err = db.NewMiscDataNamespace(h.backend).String(keyOfRan); err != nil {
		return err
	}
	if h.index, err = db.NewLowlevel(h.backend, events.NoopLogger, db.WithRecheckInterval(never)); err != nil {
		return notOpened(err)
	}
	h.times, err = hasTimes(h.backend)
	return err
}

// hasTimes says whether an index has times of files that their disks can't keep. Mostly it has none, and none is looked up then.
func hasTimes(index backend.Backend) (bool, error) {
	times, err := index.NewPrefixIterator([]byte{db.KeyTypeVirtualMtime})
	if err != nil {
		return false, err
	}
	defer times.Release()
	return times.Next(), times.Error()
}

// Close removes the copy.
func (h *Home) Close() {
	if h.backend != nil {
		h.backend.Close()
	}
	if h.copied != "" {
		leftover.Remove(h.copied)
	}
}
