package device

import (
	"os"
	"path/filepath"
	"strings"
	"syscall"
	"testing"
	"time"

	"github.com/syncthing/syncthing/lib/fs"
)

// soon gives a function's error, or says that it waits for something.
func soon(t *testing.T, what string, do func() error) error {
	ended := make(chan error, 1)
	go func() { ended <- do() }()
	select {
	case err := <-ended:
		return err
	case <-time.After(20 * time.Second):
		t.Errorf("%s: it waits", what)
		return nil
	}
}

// In each place of a file of a home or a folder may stand a pipe, of which nobody knows when it ends, or a device, which may have no end.
func TestWhatIsNoFileIsNotRead(t *testing.T) {
	for _, one := range []struct {
		at   string
		read func(room string) error
	}{
		{"cert.pem", func(room string) error { _, err := readAbout(room, nil); return err }},
		{"config.xml", func(room string) error { _, err := readAbout(room, nil); return err }},
		{"LOCK", func(room string) error { _, err := lockShared(room, room); return err }},
		{"CURRENT", func(room string) error { _, err := currentManifest(room); return err }},
		{"MANIFEST-000001", func(room string) error { _, err := readManifest(room); return err }},
		{"000001.log", func(room string) error { _, err := readRecords(filepath.Join(room, "000001.log")); return err }},
		{".stignore", patternsOf},
		{"included", patternsOf},
		{"outside", func(room string) error { return patternsOf(filepath.Join(room, "folder")) }},
	} {
		for kind, put := range map[string]func(path string) error{
			"a pipe":            func(path string) error { return syscall.Mkfifo(path, 0o600) },
			"a device":          func(path string) error { return os.Symlink("/dev/null", path) },
			"a link to no file": func(path string) error { return os.Symlink(t.TempDir(), path) },
		} {
			room := filled(t)
			os.Remove(filepath.Join(room, one.at))
			if err := put(filepath.Join(room, one.at)); err != nil {
				t.Fatal(err)
			}
			err := soon(t, one.at+", "+kind, func() error { return one.read(room) })
			if err == nil || !strings.Contains(err.Error(), "it is no file") && !strings.Contains(err.Error(), "is a directory") {
				t.Errorf("%s, %s: %v", one.at, kind, err)
			}
		}
	}
}

// patternsOf reads the patterns of a folder's directory.
func patternsOf(room string) error {
	_, err := patternsIn(fs.NewFilesystem(fs.FilesystemTypeBasic, room))
	return err
}

// filled gives a directory with the files of a home, of an index and of a folder, and with a folder in it.
func filled(t *testing.T) string {
	room := t.TempDir()
	for name, text := range map[string]string{"cert.pem": "-----BEGIN CERTIFICATE-----\nAAAA\n-----END CERTIFICATE-----\n", "config.xml": "", "LOCK": "",
		"CURRENT": "MANIFEST-000001\n", "MANIFEST-000001": "", "000001.log": "", ".stignore": "#include included\n", "included": "*.tmp\n",
		"folder/.stignore": "#include ../outside\n", "outside": ""} {
		path := filepath.Join(room, name)
		if err := os.MkdirAll(filepath.Dir(path), 0o700); err != nil {
			t.Fatal(err)
		}
		if err := os.WriteFile(path, []byte(text), 0o600); err != nil {
			t.Fatal(err)
		}
	}
	for _, one := range []string{room, filepath.Join(room, "folder")} {
		if err := patternsOf(one); err != nil {
			t.Fatal(err)
		}
	}
	return room
}
