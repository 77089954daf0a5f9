package directory

import (
	"fmt"
	"os"
	"path/filepath"
	"reflect"
	"sort"
	"strings"
	"testing"

	"golang.org/x/sys/unix"
	"syncthing-audit/fixture"
)

// useKernel has another kernel answer how a directory is opened: with these errors in turn, and then with the directory. It gives how often it was asked.
func useKernel(t *testing.T, answers ...error) *int {
	had, asked := openat2, 0
	t.Cleanup(func() { openat2 = had })
	openat2 = func(at int, name string, how unix.OpenHow) (int, error) {
		if asked++; asked <= len(answers) {
			return -1, answers[asked-1]
		}
		return had(at, name, how)
	}
	return &asked
}

// below is what stands in the directories of a tree.
var below = []struct {
	name  string
	names []string
}{{".", []string{"a", "d"}}, {"a", []string{"b", "x", "y"}}, {"a/b", []string{"c"}}, {"a/b/c", []string{}}, {"d", []string{}}}

// tree makes these directories in one.
func tree(t *testing.T) string {
	room, err := filepath.EvalSymlinks(t.TempDir())
	for _, name := range []string{"a/b/c", "a/x", "a/y", "d"} {
		if err == nil {
			err = os.MkdirAll(filepath.Join(room, name), 0o755)
		}
	}
	if err != nil {
		t.Fatal(err)
	}
	return room
}

// openedBelow gives how often each directory at a path or below it is open.
func openedBelow(t *testing.T, room string) map[string]int {
	opened := map[string]int{}
	for path, times := range fixture.Opened(t) {
		if strings.HasPrefix(path, room) {
			opened[strings.TrimPrefix(path, room)] = times
		}
	}
	return opened
}

// A kernel that was disturbed is asked again. One that lacks the call, or where something forbids it, isn't asked for it a second time. What else it says is
// the error. Each directory is told as it is, as often as it is asked for, and one is open at a time, beside the one above all.
func TestKernels(t *testing.T) {
	for _, row := range []struct {
		answers []error
		asked   int // for five directories
		err     error
	}{
		{nil, 5, nil},
		{[]error{unix.EAGAIN, unix.EINTR, unix.EINTR, unix.EAGAIN}, 9, nil},
		{[]error{unix.ENOSYS}, 1, nil}, {[]error{unix.EPERM}, 1, nil}, {[]error{unix.EAGAIN, unix.ENOSYS}, 2, nil},
		{[]error{unix.EMFILE}, 6, unix.EMFILE}, {[]error{unix.EINTR, unix.EACCES}, 7, unix.EACCES},
	} {
		room := tree(t)
		asked, beneath := useKernel(t, row.answers...), NewBeneath(room)
		if row.err != nil {
			if _, err := beneath.DirNames("a/b"); err == nil || err.Error() != fmt.Sprintf("open %s: %v", filepath.Join(room, "a/b"), row.err) {
				t.Errorf("%v: %v", row.answers, err)
			}
		}
		for _, directory := range below {
			for times := 0; times < 2; times++ {
				names, err := beneath.DirNames(directory.name)
				if sort.Strings(names); err != nil || !reflect.DeepEqual(names, directory.names) {
					t.Errorf("%v: in %s are %q, %v", row.answers, directory.name, names, err)
				}
			}
		}
		if *asked != row.asked {
			t.Errorf("%v: it is asked %d times, not %d", row.answers, *asked, row.asked)
		}
		if opened := openedBelow(t, room); !reflect.DeepEqual(opened, map[string]int{"": 1, "/d": 1}) {
			t.Errorf("%v: open are %v", row.answers, opened)
		}
	}
}

// What is asked of a directory that is gone meanwhile, or of a name that isn't of the kind, is told with the path, and not with the kernel's.
func TestWhatGoesMeanwhile(t *testing.T) {
	room := tree(t)
	beneath := NewBeneath(room)
	if _, err := beneath.DirNames("d"); err != nil {
		t.Fatal(err)
	}
	if err := os.Remove(filepath.Join(room, "d")); err != nil {
		t.Fatal(err)
	}
	at := func(what, name string, err error) string {
		return fmt.Sprintf("%s %s: %v", what, filepath.Join(room, name), err)
	}
	_, listed := beneath.DirNames("d")
	_, looked := beneath.About("d/x")
	_, read := beneath.ReadSymlink("a/b")
	_, opened := beneath.DirNames("a/none")
	for due, err := range map[string]error{at("readdirent", "d", unix.ENOENT): listed, at("lstat", "d/x", unix.ENOENT): looked, at("readlink", "a/b", unix.EINVAL): read,
		at("open", "a/none", unix.ENOENT): opened} {
		if err == nil || err.Error() != due {
			t.Errorf("%v, not %s", err, due)
		}
	}
	failed := fmt.Errorf("made up")
	if err := beneath.Within("a", "do", "a", func(*os.File) error { return failed }); err != failed {
		t.Error(err)
	}
	if _, err := NewBeneath(filepath.Join(room, "none")).DirNames("."); err == nil || err.Error() != at("open", "none", unix.ENOENT) {
		t.Error(err)
	}
}

// A directory that is open is the one that is told of, whatever has its name, until another one is asked for.
func TestTheOpenDirectoryIsTold(t *testing.T) {
	room := tree(t)
	beneath := NewBeneath(room)
	for step, count := range []int{3, 3, 0} {
		names, err := beneath.DirNames("a")
		if err != nil || len(names) != count {
			t.Errorf("step %d: %q, %v", step, names, err)
		}
		switch step {
		case 0:
			os.Rename(filepath.Join(room, "a"), filepath.Join(room, "before"))
			os.Mkdir(filepath.Join(room, "a"), 0o755)
		case 1:
			beneath.DirNames("d")
		}
	}
}

// Without /proc, by which names are looked up in an open directory, a folder isn't read, and nothing stays open.
func TestWithoutProc(t *testing.T) {
	room := tree(t)
	t.Cleanup(func() { descriptors = "/proc/self/fd" })
	descriptors = filepath.Join(room, "none")
	beneath := NewBeneath(room)
	if _, err := beneath.DirNames("."); err == nil || !strings.HasPrefix(err.Error(), "refused: a folder is read by /proc") {
		t.Error(err)
	}
	if opened := openedBelow(t, room); len(opened) > 0 {
		t.Errorf("open are %v", opened)
	}
}
