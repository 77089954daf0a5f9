//go:build !windows

package directory

import (
	"crypto/sha256"
	"errors"
	"fmt"
	"os"
	"path/filepath"
	"syscall"
	"testing"
	"time"
)

// What stands under a name is told as the system has it.
func TestKindsOfNames(t *testing.T) {
	room, when := t.TempDir(), time.Unix(1700000000, 5000)
	path := func(name string) string { return filepath.Join(room, name) }
	for _, err := range []error{os.WriteFile(path("file"), []byte("text"), 0o640), os.Mkdir(path("directory"), 0o750), os.Symlink("file", path("symlink")), syscall.Mkfifo(path("pipe"), 0o604)} {
		if err != nil {
			t.Fatal(err)
		}
	}
	for name, mode := range map[string]os.FileMode{"file": 0o640, "directory": 0o750, "pipe": 0o604} { // whatever the umask
		os.Chmod(path(name), mode)
	}
	os.Chtimes(path("file"), when, when)
	files, err := Open(room)
	if err != nil || files.URI() != room {
		t.Fatal(err)
	}
	for name, due := range map[string]string{"file": "false true false 640", "directory": "true false false 750", "symlink": "false false true 777", "pipe": "false false false 604"} {
		info, err := files.Lstat(name)
		if err != nil {
			t.Fatal(err)
		}
		about, err := os.Lstat(path(name))
		if err != nil {
			t.Fatal(err)
		}
		for _, one := range []Info{info, InfoOf(about)} { // as Go itself has it, too
			if told := fmt.Sprintf("%v %v %v %o", one.IsDir(), one.IsRegular(), one.IsSymlink(), one.Permissions()); told != due {
				t.Errorf("%s: %s, not %s", name, told, due)
			}
		}
		if name == "file" && (info.Size() != 4 || !info.ModTime().Equal(when) || info.About().Size() != 4) {
			t.Errorf("%d bytes of %v", info.Size(), info.ModTime())
		}
	}
}

// A folder is opened where there is a directory; a symlink may lead to it. It has a path from the root on.
func TestWhatIsNoFolder(t *testing.T) {
	room := t.TempDir()
	path := func(name string) string { return filepath.Join(room, name) }
	os.WriteFile(path("file"), nil, 0o600)
	os.Symlink(room, path("symlink"))
	if _, err := Open(path("file")); !errors.Is(err, syscall.ENOTDIR) || err.Error() != "open "+path("file")+": not a directory" {
		t.Error(err)
	}
	if _, err := Open(path("none")); !errors.Is(err, os.ErrNotExist) {
		t.Error(err)
	}
	if files, err := Open(path("symlink")); err != nil || files.URI() != path("symlink") {
		t.Error(err)
	}
	here, err := os.Getwd()
	if err != nil {
		t.Fatal(err)
	}
	defer os.Chdir(here)
	if files, err := Open("."); err != nil || files.URI() != here {
		t.Error(err)
	}
	os.Mkdir(path("gone"), 0o700)
	os.Chdir(path("gone"))
	os.Remove(path("gone"))
	if _, err := Open("."); err == nil {
		t.Error("a directory that is gone has a path")
	}
}

// A place is the same text for one directory on one machine, by whatever path, and another one for another directory or machine. A machine without an id has
// its name.
func TestPlaces(t *testing.T) {
	room := t.TempDir()
	path := func(name string) string { return filepath.Join(room, name) }
	os.Mkdir(path("directory"), 0o700)
	os.Symlink("directory", path("symlink"))
	host, err := os.Hostname()
	if err != nil {
		t.Fatal(err)
	}
	about, err := os.Stat(path("directory"))
	if err != nil {
		t.Fatal(err)
	}
	said := about.Sys().(*syscall.Stat_t)
	t.Cleanup(func() { machineID = "/etc/machine-id" })
	for id, machine := range map[string]string{"0123\n": "0123\n", "01": "01", "\n": host, "": host, "none": host} {
		machineID = path("id " + id)
		if id != "none" {
			os.WriteFile(machineID, []byte(id), 0o600)
		}
		due := fmt.Sprintf("%x", sha256.Sum256([]byte(fmt.Sprintf("%s %d %d", machine, said.Dev, said.Ino))))
		for _, name := range []string{"directory", "symlink"} {
			if place, err := Place(path(name)); place != due || err != nil {
				t.Errorf("%q: %s: %s, %v", id, name, place, err)
			}
		}
		if place, err := Place(room); place == due || err != nil {
			t.Errorf("%q: two directories have one place, %v", id, err)
		}
	}
	if _, err := Place(path("none")); !errors.Is(err, os.ErrNotExist) {
		t.Error(err)
	}
}
