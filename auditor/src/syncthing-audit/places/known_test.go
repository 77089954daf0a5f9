package places

import (
	"os"
	"path/filepath"
	"strings"
	"testing"

	"github.com/syncthing/syncthing/lib/protocol"
)

// idAt gives the id of a device of a test.
func idAt(device byte) string { return protocol.DeviceID{7: device}.String() }

// knownFile gives where known devices are kept, with these lines.
func knownFile(t *testing.T, text string) string {
	path := filepath.Join(t.TempDir(), "new", "known_devices")
	if text == "" {
		return path
	}
	if err := os.Mkdir(filepath.Dir(path), 0o700); err != nil {
		t.Fatal(err)
	}
	if err := os.WriteFile(path, []byte(text), 0o600); err != nil {
		t.Fatal(err)
	}
	return path
}

// metAt has a device be looked at, and gives what is told and refused.
func metAt(t *testing.T, path string, places []*place, devices ...string) (string, error) {
	known, err := readKnown(path)
	if err != nil {
		return "", err
	}
	var log strings.Builder
	run := &running{places: places, known: known, log: &log}
	for at, device := range devices {
		if err := run.meet(at, device); err != nil {
			return log.String(), err
		}
	}
	run.keepKnown()
	return log.String(), nil
}

// A place on another machine keeps the device that was met there first; a home of this machine is itself.
func TestAPlaceKeepsItsDevice(t *testing.T) {
	path := knownFile(t, "")
	places := func() []*place {
		return []*place{{given: "nas:", host: "nas"}, {given: "nas:b", host: "nas", home: "b"}, {given: "/srv/home", home: "/srv/home"}}
	}
	told, err := metAt(t, path, places(), idAt(1), idAt(2), idAt(3))
	if err != nil || strings.Count(told, "is refused if it is another one next time") != 2 {
		t.Errorf("%v: %s", err, told)
	}
	about, err := os.Stat(path)
	if text, _ := os.ReadFile(path); err != nil || string(text) != idAt(1)+" nas:\n"+idAt(2)+" nas:b\n" || about.Mode().Perm() != 0o600 {
		t.Errorf("%v: %s", err, text)
	}
	if told, err := metAt(t, path, places(), idAt(1), idAt(2), idAt(4)); err != nil || told != "" {
		t.Errorf("%v: %s", err, told)
	}
	_, err = metAt(t, path, places(), idAt(1), idAt(1))
	if err == nil || !strings.Contains(err.Error(), "refused: nas:b says that it is device "+idAt(1)+", and it was "+idAt(2)+" when it was met first") {
		t.Error(err)
	}
	if _, err := metAt(t, path, places(), idAt(3)); err == nil {
		t.Error("another device at nas: is taken")
	}
}

// A device that calls itself otherwise in its part than before, or by no id, is refused, and nothing of it is kept.
func TestADeviceThatCallsItselfOtherwise(t *testing.T) {
	path := knownFile(t, "")
	for _, said := range [][2]string{{idAt(1), idAt(2)}, {strings.ToLower(idAt(1)), strings.ToLower(idAt(1))}, {idAt(1) + "\n" + idAt(2), ""}} {
		there := &place{given: "nas:", host: "nas"}
		run := &running{places: []*place{there}, known: &knownDevices{path: path, ids: map[string]string{}}}
		err := run.meet(0, said[0])
		if err == nil {
			err = run.meet(0, said[1])
		}
		if err == nil || !strings.HasPrefix(err.Error(), "refused: nas says that it is device ") {
			t.Errorf("%q: %v", said, err)
		}
	}
	if _, err := os.Stat(path); err == nil {
		t.Error("something is kept")
	}
}

// A file of known devices that isn't one is refused: what it was to keep isn't known.
func TestKnownDevicesThatAreNone(t *testing.T) {
	for _, text := range []string{"nas: " + idAt(1) + "\n", idAt(1) + "\n", idAt(1)[:20] + " nas:\n", "\x00\x01", strings.ToLower(idAt(1)) + " nas:\n",
		idAt(1) + " nas:\n" + idAt(2) + " nas:\n"} {
		if _, err := readKnown(knownFile(t, text)); err == nil || !strings.HasPrefix(err.Error(), "refused: line ") {
			t.Errorf("%q: %v", text, err)
		}
	}
	if _, err := readKnown(t.TempDir()); err == nil || !strings.HasPrefix(err.Error(), "refused: ") {
		t.Error(err)
	}
	if known, err := readKnown(knownFile(t, "# mine\n\n"+idAt(1)+" nas:\n")); err != nil || known.ids["nas:"] != idAt(1) {
		t.Error(err)
	}
}

// What can't be kept is told, and the run goes on.
func TestKnownDevicesThatCannotBeKept(t *testing.T) {
	file := filepath.Join(t.TempDir(), "file")
	if err := os.WriteFile(file, nil, 0o600); err != nil {
		t.Fatal(err)
	}
	for _, path := range []string{filepath.Join(file, "known"), filepath.Dir(file), "/dev/full"} {
		var log strings.Builder
		run := &running{places: []*place{{given: "nas:", host: "nas", device: idAt(1)}}, known: &knownDevices{path: path, ids: map[string]string{}}, log: &log}
		run.keepKnown()
		if !strings.Contains(log.String(), "which can't be kept, so another one there next time won't be seen: ") {
			t.Error(log.String())
		}
	}
}

// A place with a newline makes no line of its own in the file.
func TestAPlaceIsOneLine(t *testing.T) {
	path := knownFile(t, "")
	odd := func() []*place { return []*place{{given: "nas:a", host: "nas", home: "a\n" + idAt(2) + " other:"}} }
	for range []int{1, 2} {
		if _, err := metAt(t, path, odd(), idAt(1)); err != nil {
			t.Error(err)
		}
	}
	if known, err := readKnown(path); err != nil || len(known.ids) != 1 {
		t.Errorf("%v: %v", err, known)
	}
}

// A last line without its end isn't made one with the next.
func TestALineThatHasNoEnd(t *testing.T) {
	path := knownFile(t, idAt(1)+" nas:")
	places := func() []*place {
		return []*place{{given: "nas:", host: "nas"}, {given: "pi:", host: "pi"}, {given: "tv:", host: "tv"}}
	}
	if _, err := metAt(t, path, places(), idAt(1), idAt(2), idAt(3)); err != nil {
		t.Fatal(err)
	}
	text, err := os.ReadFile(path)
	if err != nil || string(text) != idAt(1)+" nas:\n"+idAt(2)+" pi:\n"+idAt(3)+" tv:\n" {
		t.Errorf("%v: %s", err, text)
	}
	if _, err := metAt(t, path, places(), idAt(4)); err == nil || !strings.Contains(err.Error(), "it was "+idAt(1)+" when it was met first") {
		t.Error(err)
	}
}
