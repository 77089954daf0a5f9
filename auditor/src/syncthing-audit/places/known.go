package places

import (
	"errors"
	"fmt"
	"os"
	"path/filepath"
	"strings"

	"github.com/syncthing/syncthing/lib/protocol"
	"syncthing-audit/outside"
	"syncthing-audit/regular"
	"syncthing-audit/shell"
)

// nameOfKnown is the file, in the user's home, that says which device 'run' met first at each place of another machine. A line has the device's id,
// a space and the place.
const nameOfKnown = ".local/state/syncthing-audit/known_devices"

// mostOfKnown is how many bytes such a file has at most.
const mostOfKnown = 16 << 20

// knownDevices has the devices of such a file, by their places. Whoever answers there later is to be that device: another machine of that name, or
// a machine that speaks for another one, is refused.
type knownDevices struct {
	path  string
	ids   map[string]string
	isCut bool // whether the last line has no end
}

// knownAt reads the file, where one of these places is on another machine.
func knownAt(places []*place) (*knownDevices, error) {
	for _, place := range places {
		if place.host != "" {
			home, err := os.UserHomeDir()
			if err != nil {
				return nil, err
			}
			return readKnown(filepath.Join(home, nameOfKnown))
		}
	}
	return &knownDevices{ids: map[string]string{}}, nil
}

// readKnown reads the file; there needn't be one.
func readKnown(path string) (*knownDevices, error) {
	known := &knownDevices{path: path, ids: map[string]string{}}
	text, _, err := regular.Read(path, mostOfKnown)
	if err != nil && !errors.Is(err, os.ErrNotExist) {
		return nil, fmt.Errorf("refused: which devices are known can't be read: %w", err)
	}
	known.isCut = len(text) > 0 && !strings.HasSuffix(string(text), "\n")
	for at, line := range strings.Split(string(text), "\n") {
		if line == "" || strings.HasPrefix(line, "#") {
			continue
		}
		device, place, _ := strings.Cut(line, " ")
		if !isDevice(device) || place == "" {
			return nil, fmt.Errorf("refused: line %d of %s isn't a device id, a space and a place", at+1, shell.Quoted(known.path))
		}
		if had, is := known.ids[place]; is && had != device {
			return nil, fmt.Errorf("refused: line %d of %s has a second device at %s: take one of them away", at+1, shell.Quoted(known.path), place)
		}
		known.ids[place] = device
	}
	return known, nil
}

// isDevice says whether this is a device id as Syncthing writes it.
func isDevice(device string) bool {
	id, err := protocol.DeviceIDFromString(device)
	return err == nil && id.String() == device
}

// atPlace gives the word for a place in the file; nothing for a home on this machine, which is itself.
func atPlace(place *place) string {
	if place.host == "" {
		return ""
	}
	return outside.Escaped(place.host + ":" + place.home)
}

// check says why a device isn't the one that was met first at a place.
func (k *knownDevices) check(place *place, device string) error {
	had := k.ids[atPlace(place)]
	if had == "" || had == device {
		return nil
	}
	return fmt.Errorf("refused: %s says that it is device %s, and it was %s when it was met first. If that device has a new identity, or the name another "+
		"machine, take the line of %s out of %s", place.called(), device, had, atPlace(place), shell.Quoted(k.path))
}

// add keeps a device that was met first, and says whether it is new.
func (k *knownDevices) add(place *place, device string) (bool, error) {
	word := atPlace(place)
	if word == "" || k.ids[word] != "" {
		return false, nil
	}
	k.ids[word] = device
	if err := os.MkdirAll(filepath.Dir(k.path), 0o700); err != nil {
		return true, err
	}
	file, err := os.OpenFile(k.path, os.O_WRONLY|os.O_CREATE|os.O_APPEND, 0o600)
	if err != nil {
		return true, err
	}
	line := device + " " + word + "\n"
	if k.isCut {
		line = "\n" + line
	}
	k.isCut = false
	_, err = file.WriteString(line)
	if closed := file.Close(); err == nil {
		err = closed
	}
	return true, err
}

// meet says why the device that was looked at isn't the one that was asked before, or that was met first at its place.
func (r *running) meet(at int, device string) error {
	place := r.places[at]
	if !isDevice(device) {
		return fmt.Errorf("refused: %s says that it is device %q, which isn't a device id as Syncthing writes it", place.called(), device)
	}
	if place.device != "" && place.device != device {
		return fmt.Errorf("refused: %s says that it is device %s, and before the look it said %s", place.called(), device, place.device)
	}
	place.device = device
	return r.known.check(place, device)
}

// keepKnown keeps and tells which devices were met first.
func (r *running) keepKnown() {
	for _, at := range r.present() {
		place := r.places[at]
		isNew, err := r.known.add(place, place.device)
		switch {
		case isNew && err != nil:
			outside.Printf(r.log, "syncthing-audit: %s: it is device %s, which can't be kept, so another one there next time won't be seen: %v\n", place.called(),
				place.device, err)
		case isNew:
			outside.Printf(r.log, "syncthing-audit: %s: it is device %s, and is refused if it is another one next time (%s)\n", place.called(), place.device,
				"~/"+nameOfKnown)
		}
	}
}
