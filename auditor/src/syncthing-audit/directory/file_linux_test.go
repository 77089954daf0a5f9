package directory

import (
	"errors"
	"io"
	"os"
	"path/filepath"
	"testing"

	"golang.org/x/sys/unix"
	"syncthing-audit/fixture"
)

// As many bytes are read as are asked for, or it is said why not.
func TestWhatIsReadOfAnOpenFile(t *testing.T) {
	path := filepath.Join(t.TempDir(), "file")
	if err := os.WriteFile(path, []byte("hello"), 0o600); err != nil {
		t.Fatal(err)
	}
	file, err := OpenFile(path)
	if err != nil {
		t.Fatal(err)
	}
	for _, row := range []struct {
		offset int64
		length int
		text   string
		err    error
	}{{0, 5, "hello", nil}, {1, 3, "ell", nil}, {4, 0, "", nil}, {3, 4, "lo", io.EOF}, {5, 1, "", io.EOF}, {-1, 1, "", unix.EINVAL}} {
		to := make([]byte, row.length)
		if count, err := file.ReadAt(to, row.offset); string(to[:count]) != row.text || !errors.Is(err, row.err) {
			t.Errorf("from %d: %q, %v", row.offset, to[:count], err)
		}
	}
	about, err := file.Stat()
	if err != nil || about.Size() != 5 || !about.Mode().IsRegular() {
		t.Errorf("%v, %v", about, err)
	}
	is := func(opened string) bool { return opened == path }
	if fixture.CountOpened(t, is) != 1 || file.Close() != nil || fixture.CountOpened(t, is) != 0 {
		t.Error("it isn't closed")
	}
	if _, err := OpenFile(path + "x"); !errors.Is(err, os.ErrNotExist) || err.Error() != "open "+path+"x: no such file or directory" {
		t.Error(err)
	}
}

// A read that fails says of which file. A directory can be opened, and not read.
func TestAFailedReadNamesItsFile(t *testing.T) {
	path := t.TempDir()
	file, err := OpenFile(path)
	if err != nil {
		t.Fatal(err)
	}
	defer file.Close()
	_, err = file.ReadAt(make([]byte, 1), 0)
	var failed *os.PathError
	if !errors.As(err, &failed) || failed.Op != "read" || failed.Path != path || failed.Err != unix.EISDIR {
		t.Errorf("a read of a directory fails with %v", err)
	}
}

// So does a look at it that fails.
func TestAFailedLookNamesItsFile(t *testing.T) {
	_, err := File{-1, "", "file"}.Stat()
	if !errors.Is(err, unix.EBADF) || err.Error() != "stat file: bad file descriptor" {
		t.Errorf("a look at no file fails with %v", err)
	}
}

// A file that is leased is opened once the lease is given back: the first call says that it would wait, and the second one waits.
func TestALeasedFileIsWaitedFor(t *testing.T) {
	file, err := openFile("above", "file", func(name string, flags int) (int, error) {
		if flags&unix.O_NONBLOCK != 0 {
			return -1, unix.EWOULDBLOCK
		}
		return 7, nil
	})
	if err != nil || file.Number != 7 {
		t.Errorf("%+v, %v", file, err)
	}
}

// Nothing is opened below a directory that isn't there.
func TestNothingIsOpenedBelowNoDirectory(t *testing.T) {
	if _, err := NewBeneath(filepath.Join(t.TempDir(), "none")).OpenToRead("file"); !errors.Is(err, os.ErrNotExist) {
		t.Error(err)
	}
}
