package directory

import (
	"errors"
	"fmt"
	"os"
	"path/filepath"
	"testing"

	"golang.org/x/sys/unix"
)

// With openat2 and without it the same is told of a directory, and no symlink on the way is followed.
func TestNothingOutsideADirectoryIsTold(t *testing.T) {
	room, outside := t.TempDir(), t.TempDir()
	if err := os.MkdirAll(filepath.Join(room, "a", "b"), 0o755); err != nil {
		t.Fatal(err)
	}
	if err := os.WriteFile(filepath.Join(room, "a", "b", "file"), []byte("text"), 0o600); err != nil {
		t.Fatal(err)
	}
	for name, target := range map[string]string{"out": outside, "a/b/in": "file", "up": "a"} {
		if err := os.Symlink(target, filepath.Join(room, name)); err != nil {
			t.Fatal(err)
		}
	}
	for _, lacks := range []bool{false, true} {
		files, err := Open(room)
		if err != nil {
			t.Fatal(err)
		}
		files.inside.lacks.Store(lacks)
		for _, name := range []string{"out", "up", "up/b", "a/../up"} {
			if _, err := files.DirNames(name); !errors.Is(err, unix.ELOOP) && !errors.Is(err, unix.ENOTDIR) {
				t.Errorf("%v, %s: %v", lacks, name, err)
			}
		}
		for _, name := range []string{"..", "../" + filepath.Base(outside), "a/../..", outside} {
			if _, err := files.DirNames(name); !errors.Is(err, unix.EXDEV) {
				t.Errorf("%v, %s: %v", lacks, name, err)
			}
		}
		if _, err := files.Lstat("up/b"); err == nil {
			t.Errorf("%v: what is behind a symlink is told", lacks)
		}
		if _, err := files.ReadSymlink("up/b/in"); err == nil {
			t.Errorf("%v: a symlink behind another one is told", lacks)
		}
		names, err := files.DirNames("a/b")
		info, of := files.Lstat("a/b/file")
		target, to := files.ReadSymlink("a/b/in")
		if told := fmt.Sprint(len(names), err, of, to, target); told != "2 <nil> <nil> <nil>file" || info.Size() != 4 {
			t.Errorf("%v: %s", lacks, told)
		}
		if _, err := files.Lstat("a/b/none"); !errors.Is(err, os.ErrNotExist) || err.Error() != "lstat "+filepath.Join(room, "a/b/none")+": no such file or directory" {
			t.Errorf("%v: %v", lacks, err)
		}
		if _, err := files.OpenToRead("a/b/in"); !errors.Is(err, unix.ELOOP) || err.Error() != "open "+filepath.Join(room, "a/b/in")+": too many levels of symbolic links" {
			t.Errorf("%v: a symlink is opened: %v", lacks, err)
		}
		if _, err := files.OpenToRead("a/../../" + filepath.Base(room) + "/a/b/file"); !errors.Is(err, unix.EXDEV) {
			t.Errorf("%v: a name that leads out is opened: %v", lacks, err)
		}
		if _, err := files.OpenToRead("up/b/file"); !lacks && !errors.Is(err, unix.ELOOP) {
			t.Errorf("a file behind a symlink is opened: %v", err)
		}
		if file, err := files.OpenToRead("a/b/file"); err != nil || file.Close() != nil {
			t.Errorf("%v: %v", lacks, err)
		}
		if root, err := files.Lstat("."); err != nil || !root.IsDir() {
			t.Errorf("%v: %v", lacks, err)
		}
		if above, err := files.DirNames("."); err != nil || len(above) != 3 {
			t.Errorf("%v: %v, %v", lacks, above, err)
		}
	}
}
