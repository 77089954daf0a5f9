package adapt

import (
	"errors"
	"fmt"
	"os"
	"path/filepath"
	"testing"

	"github.com/syncthing/syncthing/lib/fs"
	"golang.org/x/sys/unix"
)

// A folder's files are told, and no symlink on the way is followed.
func TestNothingOutsideIsTold(t *testing.T) {
	room, outside := t.TempDir(), t.TempDir()
	if err := os.MkdirAll(filepath.Join(room, "a", "b"), 0o755); err != nil {
		t.Fatal(err)
	}
	if err := os.WriteFile(filepath.Join(room, "a", "b", "file"), []byte("text"), 0o600); err != nil {
		t.Fatal(err)
	}
	for name, target := range map[string]string{"out": outside, "a/b/in": "file", "up": "a"} {
		if err := os.Symlink(target, filepath.Join(room, name)); err != nil {
			t.Fatal(err)
		}
	}
	files := NewBeneath(fs.NewFilesystem(fs.FilesystemTypeBasic, room))
	for range []int{1, 2} { // and so it is the second time
		for _, name := range []string{"out", "up", "up/b", "a/../up"} {
			if _, err := files.DirNames(name); !errors.Is(err, unix.ELOOP) && !errors.Is(err, unix.ENOTDIR) {
				t.Errorf("%s: %v", name, err)
			}
		}
		if _, err := files.Lstat("up/b"); err == nil {
			t.Error("what is behind a symlink is told")
		}
		names, err := files.DirNames("a/b")
		info, of := files.Lstat("a/b/file")
		target, to := files.ReadSymlink("a/b/in")
		about, errorOf := files.Info("a/b/file")
		told := fmt.Sprint(len(names), err, of, to, errorOf, target)
		if told != "2 <nil> <nil> <nil> <nil>file" || info.Size() != 4 || about.Size() != 4 {
			t.Error(told)
		}
		if _, err := files.Lstat("a/b/none"); !errors.Is(err, os.ErrNotExist) || err.Error() != "lstat "+filepath.Join(room, "a/b/none")+": no such file or directory" {
			t.Error(err)
		}
		if root, err := files.Lstat("."); err != nil || !root.IsDir() {
			t.Error(err)
		}
		if above, err := files.DirNames("."); err != nil || len(above) != 3 {
			t.Errorf("%v, %v", above, err)
		}
	}
}
