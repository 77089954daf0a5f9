package device

import (
	"os"
	"path/filepath"
	"strings"
	"testing"
	"time"

	"syncthing-audit/part"
)

// certificateOf writes the certificate of a device into a directory, and gives the directory.
func certificateOf(t *testing.T, dir, bytes string) string {
	if err := os.MkdirAll(dir, 0o700); err != nil {
		t.Fatal(err)
	}
	text := "-----BEGIN CERTIFICATE-----\n" + bytes + "\n-----END CERTIFICATE-----\n"
	if err := os.WriteFile(filepath.Join(dir, "cert.pem"), []byte(text), 0o600); err != nil {
		t.Fatal(err)
	}
	return dir
}

// indexAt makes an index of this name in a directory, which was written at this second.
func indexAt(t *testing.T, dir, name string, written int64) {
	path := filepath.Join(dir, name)
	if err := os.MkdirAll(path, 0o700); err != nil {
		t.Fatal(err)
	}
	if err := os.WriteFile(filepath.Join(path, "LOG"), nil, 0o600); err != nil {
		t.Fatal(err)
	}
	if err := os.Chtimes(filepath.Join(path, "LOG"), time.Unix(written, 0), time.Unix(written, 0)); err != nil {
		t.Fatal(err)
	}
}

// newerOf reads the home of a user's device, whose index was written at second 1000, and gives what other index may be the present one.
func newerOf(t *testing.T, dir, data string) *part.Newer {
	indexAt(t, certificateOf(t, dir, "AAAA"), databaseName, 1000)
	id, err := readDeviceID(filepath.Join(dir, "cert.pem"))
	if err != nil {
		t.Fatal(err)
	}
	home := &Home{Dir: dir, ID: id, data: data}
	if err := home.noteNewer(); err != nil {
		t.Fatal(err)
	}
	if told := home.Doubts(); len(told) > 0 != (home.Newer != nil) || len(told) > 0 && !strings.Contains(told[0], "was written last ") {
		t.Errorf("%q", told)
	}
	return home.Newer
}

// An index that stands where Syncthing has it by default, and that was written after the one that is read, may be the present one. One of another
// device isn't, nor is one beside another device's home.
func TestANewerIndex(t *testing.T) {
	const share, state = ".local/share/syncthing", ".local/state/syncthing"
	for _, one := range []struct {
		why, place, name string
		written          int64
		certificate      string // beside it; nothing where there is none
		ofAnother        string // the home of another device
		isTold           bool
	}{
		{"apart from its configuration", share, databaseName, 1003, "", "", true}, {"as coarse as times are", share, databaseName, 1002, "", "", false},
		{"older", share, databaseName, 10, "", "", false}, {"a moved home", state, databaseName, 1003, "AAAA", "", true},
		{"of another device", state, databaseName, 1003, "BBBB", "", false}, {"of another one's configuration", share, databaseName, 1003, "", state, false},
		{"of Syncthing 2", state, indexOfTwo, 1003, "", "", true}, {"of another device's Syncthing 2", state, indexOfTwo, 1003, "BBBB", "", false},
	} {
		user := t.TempDir()
		indexAt(t, filepath.Join(user, one.place), one.name, one.written)
		if one.certificate != "" {
			certificateOf(t, filepath.Join(user, one.place), one.certificate)
		}
		if one.ofAnother != "" {
			certificateOf(t, filepath.Join(user, one.ofAnother), "BBBB")
		}
		newer := newerOf(t, filepath.Join(user, ".config/syncthing"), "")
		if (newer != nil) != one.isTold {
			t.Errorf("%s: %+v", one.why, newer)
		}
		if newer != nil && (newer.Path != filepath.Join(user, one.place, one.name) || newer.Read.Unix() != 1000 || newer.Written.Unix() != 1003 ||
			newer.IsOfTwo != (one.name == indexOfTwo)) {
			t.Errorf("%s: %+v", one.why, newer)
		}
	}
}

// Of a home elsewhere the places are those of the user who runs this. The newest index counts, and one that is read by two names is one.
func TestANewerIndexOfAHomeElsewhere(t *testing.T) {
	user := t.TempDir()
	t.Setenv("HOME", user)
	t.Setenv("XDG_DATA_HOME", filepath.Join(user, "xdg"))
	home := filepath.Join(t.TempDir(), "home")
	if newer := newerOf(t, home, ""); newer != nil {
		t.Errorf("alone: %+v", newer)
	}
	if err := os.MkdirAll(filepath.Join(user, ".config"), 0o700); err != nil {
		t.Fatal(err)
	}
	if err := os.Symlink(home, filepath.Join(user, ".config/syncthing")); err != nil {
		t.Fatal(err)
	}
	if newer := newerOf(t, home, ""); newer != nil {
		t.Errorf("by another name: %+v", newer)
	}
	indexAt(t, filepath.Join(user, ".local/state/syncthing"), databaseName, 2000)
	indexAt(t, filepath.Join(user, "xdg/syncthing"), databaseName, 3000)
	indexAt(t, filepath.Join(user, ".local/share/syncthing"), databaseName, 2500)
	if newer := newerOf(t, home, ""); newer == nil || newer.Path != filepath.Join(user, "xdg/syncthing", databaseName) {
		t.Errorf("%+v", newer)
	}
}

// Where a database is named, an index that is beside the configuration and newer is told.
func TestANewerIndexThanTheOneThatIsNamed(t *testing.T) {
	t.Setenv("HOME", t.TempDir())
	home, data := filepath.Join(t.TempDir(), "home"), t.TempDir()
	for written, isTold := range map[int64]bool{900: true, 1100: false} {
		indexAt(t, data, databaseName, written)
		if newer := newerOf(t, home, data); (newer != nil) != isTold {
			t.Errorf("%d: %+v", written, newer)
		}
	}
}
