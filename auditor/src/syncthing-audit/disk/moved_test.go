package disk

import (
	"errors"
	"os"
	"os/signal"
	"path/filepath"
	"syscall"
	"testing"
	"time"

	"github.com/syncthing/syncthing/lib/fs"
	"github.com/syncthing/syncthing/lib/protocol"
	"syncthing-audit/adapt"
	"syncthing-audit/fixture"
)

// twoRooms makes a folder with a directory, and a copy of it with other bytes at the end of its file. Sizes and times are the
// same.
func twoRooms(t *testing.T, size int64) (room string, file File) {
	room = t.TempDir()
	for _, name := range []string{"above", "copy"} {
		path := filepath.Join(room, name, "file")
		if err := os.Mkdir(filepath.Dir(path), 0o755); err != nil {
			t.Fatal(err)
		}
		made, err := os.Create(path)
		if err != nil {
			t.Fatal(err)
		}
		made.WriteAt([]byte(name), size-8)
		made.Truncate(size)
		made.Close()
	}
	path := filepath.Join(room, "above", "file")
	node := nodeAt(t, path)
	about, err := os.Stat(path)
	if err == nil {
		err = os.Chtimes(filepath.Join(room, "copy", "file"), about.ModTime(), about.ModTime())
	}
	if err != nil {
		t.Fatal(err)
	}
	return room, File{Disk: adapt.Directory(fs.NewFilesystem(fs.FilesystemTypeBasic, room)), Name: "above/file", Stamp: StampAt(path), Node: node,
		BlockSizes: []int64{protocol.MaxBlockSize}}
}

// swap has the copy take the directory's place, and the directory that of the copy.
func swap(t *testing.T, room string) {
	at := func(name string) string { return filepath.Join(room, name) }
	for _, one := range [][2]string{{"above", "away"}, {"copy", "above"}, {"away", "copy"}} {
		if err := os.Rename(at(one[0]), at(one[1])); err != nil {
			t.Fatal(err)
		}
	}
}

// A directory that is renamed away while its file is hashed, a copy being in its place meanwhile, doesn't give the copy's
// bytes for those of the file.
func TestADirectoryThatIsRenamedMeanwhile(t *testing.T) {
	pool := NewPool(1)
	defer pool.Close()
	room, file := twoRooms(t, 100)
	swap(t, room)
	job := pool.Begin(file)
	job.pieces.Wait()
	swap(t, room)
	if _, _, _, err := job.Wait(); !errors.Is(err, ErrChanged) {
		t.Errorf("the copy was hashed: %v", err)
	}
	if _, _, _, err := pool.Begin(file).Wait(); err != nil {
		t.Errorf("the directory is back: %v", err)
	}
}

// The same where the first pieces are of the file that was found, and the last one of the copy.
func TestADirectoryThatIsRenamedBetweenPieces(t *testing.T) {
	pool := NewPool(1)
	defer pool.Close()
	room, file := twoRooms(t, 3*pieceBytes)
	pool.hashing <- struct{}{} // both workers wait, each with a piece that is opened
	job := pool.Begin(file)
	for opened := 0; opened < 2; {
		time.Sleep(time.Millisecond)
		opened = openedIn(t, room)
	}
	swap(t, room)
	<-pool.hashing
	job.pieces.Wait()
	swap(t, room)
	if _, _, _, err := job.Wait(); !errors.Is(err, ErrChanged) {
		t.Errorf("the copy's last piece was hashed: %v", err)
	}
}

// placesThatAreTaken are what may stand at the path of a file by the time it is hashed.
var placesThatAreTaken = []struct {
	why  string
	make func(path, copy string) error
}{
	{"nothing", func(path, _ string) error { return os.Remove(path) }},
	{"the copy", func(path, copy string) error { return os.Rename(copy, path) }},
	{"a symlink to the copy", func(path, copy string) error {
		os.Remove(path)
		return os.Symlink(copy, path)
	}},
	{"a pipe", func(path, _ string) error {
		os.Remove(path)
		return syscall.Mkfifo(path, 0o600)
	}},
	{"other bytes with the time put back", func(path, _ string) error {
		about, err := os.Stat(path)
		if err == nil {
			err = os.WriteFile(path, make([]byte, 100), 0o600)
		}
		if err == nil {
			err = os.Chtimes(path, about.ModTime(), about.ModTime())
		}
		return err
	}},
}

// What comes to the path before it is opened or behind the last piece isn't the file that was found; a pipe doesn't block.
func TestWhatTakesTheFilesPlace(t *testing.T) {
	for _, one := range placesThatAreTaken {
		for _, isBehind := range []bool{false, true} {
			pool := NewPool(1)
			room, file := twoRooms(t, 100)
			time.Sleep(20 * time.Millisecond) // a time of change may be as coarse as a clock's tick
			change := func() {
				if err := one.make(filepath.Join(room, "above", "file"), filepath.Join(room, "copy", "file")); err != nil {
					t.Fatal(err)
				}
			}
			if !isBehind {
				change()
			}
			job := pool.Begin(file)
			job.pieces.Wait()
			if isBehind {
				change()
			}
			if _, _, _, err := job.Wait(); !errors.Is(err, ErrChanged) {
				t.Errorf("%s, behind the last piece: %v: %v", one.why, isBehind, err)
			}
			pool.Close()
		}
	}
}

// A file on which someone has a lease is read once it is given back.
func TestAFileWithALease(t *testing.T) {
	room, file := twoRooms(t, 100)
	held, err := os.OpenFile(filepath.Join(room, file.Name), os.O_RDWR, 0)
	if err != nil {
		t.Fatal(err)
	}
	defer held.Close()
	asked := make(chan os.Signal, 1)
	signal.Notify(asked, syscall.SIGIO)
	defer signal.Stop(asked)
	lease := func(kind int) syscall.Errno {
		_, _, err := syscall.Syscall(syscall.SYS_FCNTL, held.Fd(), syscall.F_SETLEASE, uintptr(kind))
		return err
	}
	if err := lease(syscall.F_WRLCK); err != 0 {
		t.Skip("no lease is to be had here: ", err)
	}
	given := make(chan struct{})
	go func() {
		defer close(given)
		<-asked
		lease(syscall.F_UNLCK)
	}()
	pool := NewPool(1)
	defer pool.Close()
	if _, _, _, err := pool.Begin(file).Wait(); err != nil {
		t.Error(err)
	}
	signal.Stop(asked)
	close(asked)
	<-given
}

// openedIn counts this process's open files in a directory.
func openedIn(t *testing.T, room string) int {
	return fixture.CountOpened(t, func(path string) bool { return filepath.Dir(filepath.Dir(path)) == room })
}
