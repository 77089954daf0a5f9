package directory

import (
	"net"
	"os"
	"path/filepath"
	"reflect"
	"syscall"
	"testing"

	"golang.org/x/sys/unix"
)

// What stands under a name, of each type and with each kind of permission, is told as the os package tells it, by its name and by an open file.
func TestWhatTheSystemSays(t *testing.T) {
	room := t.TempDir()
	for name, mode := range map[string]os.FileMode{"file": 0o644, "none": 0, "all": 0o777 | os.ModeSetuid | os.ModeSetgid, "suid": 0o500 | os.ModeSetuid, "sgid": 0o750 | os.ModeSetgid} {
		path := filepath.Join(room, name)
		if err := os.WriteFile(path, []byte(name), 0o600); err != nil {
			t.Fatal(err)
		}
		if err := os.Chmod(path, mode); err != nil {
			t.Fatal(err)
		}
	}
	if err := os.Mkdir(filepath.Join(room, "directory"), 0o700); err != nil {
		t.Fatal(err)
	}
	if err := os.Chmod(filepath.Join(room, "directory"), 0o777|os.ModeSticky); err != nil {
		t.Fatal(err)
	}
	if err := os.Symlink("nowhere", filepath.Join(room, "link")); err != nil {
		t.Fatal(err)
	}
	if err := unix.Mkfifo(filepath.Join(room, "pipe"), 0o600); err != nil {
		t.Fatal(err)
	}
	listener, err := net.Listen("unix", filepath.Join(room, "socket"))
	if err != nil {
		t.Fatal(err)
	}
	defer listener.Close()
	checkAbout(t, room, 9)
	checkAbout(t, "/dev", 3) // with devices of both kinds, mostly
}

// A call that is interrupted is made again, and no other one.
func TestCallsThatAreInterrupted(t *testing.T) {
	for _, due := range []error{nil, unix.EIO, unix.EAGAIN} {
		calls := 0
		err := uninterrupted(func() error {
			if calls++; calls < 3 {
				return unix.EINTR
			}
			return due
		})
		if calls != 3 || err != due {
			t.Errorf("%d calls, %v", calls, err)
		}
	}
}

// checkAbout checks what is told of all names in a directory, of which there are as many at least.
func checkAbout(t *testing.T, path string, least int) {
	beneath := NewBeneath(path)
	names, err := beneath.DirNames(".")
	if err != nil || len(names) < least {
		t.Fatalf("%q, %v", names, err)
	}
	for _, name := range names {
		is, err := beneath.About(name)
		due, errorDue := os.Lstat(filepath.Join(path, name))
		if err != nil || errorDue != nil {
			t.Errorf("%s: %v, %v", name, err, errorDue)
			continue
		}
		isAlike(t, is, due)
		if !due.Mode().IsRegular() {
			continue
		}
		file, err := os.Open(filepath.Join(path, name))
		if os.IsPermission(err) {
			continue
		} else if err != nil {
			t.Fatal(err)
		}
		opened, err := aboutFile(int(file.Fd()))
		if file.Close(); err != nil {
			t.Errorf("%s: %v", name, err)
			continue
		}
		isAlike(t, &named{opened, name}, due)
	}
	if _, err := beneath.About("not there"); !os.IsNotExist(err) || err.Error() != "lstat "+filepath.Join(path, "not there")+": no such file or directory" {
		t.Error(err)
	}
	if _, err := aboutFile(-1); err == nil || err != unix.EBADF {
		t.Error(err)
	}
}

// named gives what is said of an open file a name.
type named struct {
	os.FileInfo
	name string
}

func (n *named) Name() string { return n.name }

func isAlike(t *testing.T, is, due os.FileInfo) {
	one, other := *is.Sys().(*syscall.Stat_t), *due.Sys().(*syscall.Stat_t)
	one.Atim, other.Atim = syscall.Timespec{}, syscall.Timespec{} // they are read meanwhile
	if is.Name() != due.Name() || is.Mode() != due.Mode() || is.Size() != due.Size() || !is.ModTime().Equal(due.ModTime()) || is.IsDir() != due.IsDir() || !reflect.DeepEqual(one, other) {
		t.Errorf("%s: %v, %+v, not %v, %+v", due.Name(), is.Mode(), one, due.Mode(), other)
	}
}
