package regular

import (
	"io"
	"os"
	"os/signal"
	"path/filepath"
	"strings"
	"syscall"
	"testing"
	"time"

	"golang.org/x/sys/unix"
	"syncthing-audit/fixture"
)

// A file of which a program has a lease, as Samba may, is opened once that is given back.
func TestAFileThatIsLeased(t *testing.T) {
	path := filepath.Join(t.TempDir(), "file")
	if err := os.WriteFile(path, []byte("text"), 0o600); err != nil {
		t.Fatal(err)
	}
	holder, err := os.Open(path)
	if err != nil {
		t.Fatal(err)
	}
	defer holder.Close()
	asked := make(chan os.Signal, 8)
	signal.Notify(asked, syscall.SIGIO)
	defer signal.Stop(asked)
	if _, err := unix.FcntlInt(holder.Fd(), unix.F_SETLEASE, unix.F_WRLCK); err != nil {
		t.Skip(err)
	}
	given := make(chan struct{})
	defer func() { <-given }()
	go func() {
		defer close(given)
		select {
		case <-asked:
		case <-time.After(10 * time.Second):
		}
		unix.FcntlInt(holder.Fd(), unix.F_SETLEASE, unix.F_UNLCK)
	}()
	file, about, err := Open(path)
	if err != nil {
		t.Fatal(err)
	}
	defer file.Close()
	if text, err := io.ReadAll(file); err != nil || string(text) != "text" || about.Size() != 4 {
		t.Errorf("%q, %v", text, err)
	}
}

// What stands at such a path is looked at before it is waited for: no pipe and no directory.
func TestWhatIsNotWaitedFor(t *testing.T) {
	room := t.TempDir()
	if err := syscall.Mkfifo(filepath.Join(room, "pipe"), 0o600); err != nil {
		t.Fatal(err)
	}
	for name, told := range map[string]string{"pipe": "it is no file", "": "is a directory", "none": "no such file"} {
		if file, err := openLeased(filepath.Join(room, name)); file != nil || err == nil || !strings.Contains(err.Error(), told) {
			t.Errorf("%q: %v", name, err)
		}
	}
	if err := os.WriteFile(filepath.Join(room, "file"), nil, 0o600); err != nil {
		t.Fatal(err)
	}
	file, err := openLeased(filepath.Join(room, "file"))
	if err != nil {
		t.Fatal(err)
	}
	file.Close()
}

// Nothing stays open of what is refused, nor of what was read.
func TestNothingIsLeftOpen(t *testing.T) {
	room := t.TempDir()
	if err := os.WriteFile(filepath.Join(room, "file"), []byte("text"), 0o600); err != nil {
		t.Fatal(err)
	}
	if err := syscall.Mkfifo(filepath.Join(room, "pipe"), 0o600); err != nil {
		t.Fatal(err)
	}
	count := func() int { return fixture.CountOpened(t, fixture.Any) }
	before := count()
	for _, name := range []string{"pipe", "", "file", "none"} {
		for most := int64(3); most < 5; most++ {
			Read(filepath.Join(room, name), most)
			if after := count(); after > before {
				t.Fatalf("%q: %d files are open, and %d were", name, after, before)
			}
		}
	}
}
