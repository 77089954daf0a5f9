package leftover

import (
	"errors"
	"io"
	"os"
	"path/filepath"
	"strings"
	"syscall"
	"testing"

	"syncthing-audit/fixture"
)

// withNames has the file system of a test have no files without a name.
func withNames(t *testing.T) {
	nameless = func(string) *os.File { return nil }
	t.Cleanup(func() { nameless = withoutName })
}

// Where each file has a name, one for this run alone loses it at once, and can be written and read all the same; where it can't be made, that is told.
func TestAFileForThisRunAlone(t *testing.T) {
	room := t.TempDir()
	t.Setenv("TMPDIR", room)
	for _, isNamed := range []bool{false, true} {
		if isNamed {
			withNames(t)
		}
		for turn := 0; turn < 2; turn++ {
			file, err := Unnamed()
			if err != nil {
				t.Fatal(err)
			}
			about, unseen := file.Stat()
			if names := namesIn(t, room); len(names) != 0 || unseen != nil || about.Mode() != 0o600 {
				t.Errorf("%v, %v, %v", names, about.Mode(), unseen)
			}
			if _, err := file.WriteString("text"); err != nil {
				t.Error(err)
			}
			if text, err := io.ReadAll(io.NewSectionReader(file, 0, 9)); err != nil || string(text) != "text" {
				t.Errorf("%q, %v", text, err)
			}
			file.Close()
		}
	}
	t.Setenv("TMPDIR", filepath.Join(room, "none"))
	if file, err := Unnamed(); err == nil {
		t.Errorf("%v is made nowhere", file.Name())
	}
	if file, err := NewWhole(filepath.Join(room, "none")); err == nil {
		t.Errorf("%v is made nowhere", file.Name())
	}
}

// A whole file gets its name in place of another one, or of none, and is gone where it is dropped: with and without a name before. Nothing else is left, known or open.
func TestWholeFilesWithAndWithoutAName(t *testing.T) {
	for _, isNamed := range []bool{false, true} {
		if isNamed {
			withNames(t)
		}
		room := t.TempDir()
		path := filepath.Join(room, "asked")
		before := fixture.CountOpened(t, fixture.Any)
		for _, row := range []struct {
			put      func(*Whole, string) error
			text     string
			is       bool
			standing string
		}{
			{nil, "dropped", true, ""}, {(*Whole).PutNew, "first", true, "first"}, {(*Whole).PutNew, "second", false, "first"}, {(*Whole).Put, "third", true, "third"}, {nil, "fourth", true, "third"},
		} {
			file, err := NewWhole(room)
			if err != nil {
				t.Fatal(err)
			}
			if (len(file.path) > 0) != isNamed || len(paths) != len(namesOfRun(t, room)) {
				t.Errorf("%s: %q, %v", row.text, file.path, paths)
			}
			if _, err := file.WriteString(row.text); err != nil {
				t.Fatal(err)
			}
			if row.put != nil {
				if err := row.put(file, path); (err == nil) != row.is || err != nil && !os.IsExist(err) {
					t.Errorf("%s: %v", row.text, err)
				}
			}
			if row.text == "third" && len(paths) != 0 {
				t.Errorf("what has its name is known as this run's: %v", paths)
			}
			file.Drop()
			if text, _ := os.ReadFile(path); string(text) != row.standing || len(namesOfRun(t, room)) != 0 || len(paths) != 0 {
				t.Errorf("%s: %q, %v, %v", row.text, text, namesIn(t, room), paths)
			}
		}
		if after := fixture.CountOpened(t, fixture.Any); after > before {
			t.Errorf("%d files were open, and %d are", before, after)
		}
		file, err := NewWhole(room)
		if err != nil {
			t.Fatal(err)
		}
		if err := file.Put(filepath.Join(room, "none", "below")); !errors.Is(err, os.ErrNotExist) {
			t.Errorf("in no directory: %v", err)
		}
		file.Drop()
		if err := os.MkdirAll(filepath.Join(room, "full", "below"), 0o700); err != nil {
			t.Fatal(err)
		}
		if file, err = NewWhole(room); err != nil {
			t.Fatal(err)
		}
		if err := file.Put(filepath.Join(room, "full")); err == nil {
			t.Error("a directory has become a file")
		}
		file.Drop()
		if names := namesIn(t, room); len(names) != 2 || len(paths) != 0 {
			t.Errorf("%v, %v", names, paths)
		}
	}
}

// namesOfRun gives the names in a directory that are those of this run alone.
func namesOfRun(t *testing.T, room string) []string {
	names := []string{}
	for _, name := range namesIn(t, room) {
		if strings.HasPrefix(name, prefixOfFile) {
			names = append(names, name)
		}
	}
	return names
}

// Where a file system doesn't know how to move a file without taking another one's place, a link does it, or else a move; any other error is told.
func TestFilesThatAreMoved(t *testing.T) {
	t.Cleanup(func() { renaming = renamingOfTest })
	for _, failing := range []error{nil, syscall.EINVAL, syscall.ENOSYS, syscall.EIO} {
		room := t.TempDir()
		from, to := filepath.Join(room, "from"), filepath.Join(room, "to")
		renaming = renamingOfTest
		if failing != nil {
			renaming = func(int, string, int, string, uint) error { return failing }
		}
		for _, isThere := range []bool{false, true} {
			if err := os.WriteFile(from, []byte("new"), 0o600); err != nil {
				t.Fatal(err)
			}
			os.Remove(to)
			if isThere {
				if err := os.WriteFile(to, []byte("old"), 0o600); err != nil {
					t.Fatal(err)
				}
			}
			err := moveNew(from, to)
			text, _ := os.ReadFile(to)
			switch {
			case failing == syscall.EIO && errors.Is(err, syscall.EIO):
			case failing != syscall.EIO && isThere && os.IsExist(err) && string(text) == "old":
			case failing != syscall.EIO && !isThere && err == nil && string(text) == "new":
			default:
				t.Errorf("%v, %v: %q, %v", failing, isThere, text, err)
			}
		}
		if failing == syscall.EINVAL {
			os.Remove(to)
			if err := os.Mkdir(filepath.Join(room, "directory"), 0o700); err != nil {
				t.Fatal(err)
			}
			if err := moveNew(filepath.Join(room, "directory"), to); err != nil || !isThere(to) || isThere(filepath.Join(room, "directory")) { // it has no links
				t.Errorf("a directory isn't moved: %v", err)
			}
		}
		if err := moveNew(filepath.Join(room, "none"), filepath.Join(room, "more")); err == nil {
			t.Errorf("%v: what isn't there is moved", failing)
		}
	}
}

// renamingOfTest is how this system renames.
var renamingOfTest = renaming

// What is on its way to the disk is there once a directory is synced, and nothing of that stays open; a directory that isn't there is told.
func TestWhatIsSynced(t *testing.T) {
	room := t.TempDir()
	isHere := func(path string) bool { return path == room }
	if err := Sync(room); err != nil || fixture.CountOpened(t, isHere) != 0 {
		t.Errorf("%v, and %d are open", err, fixture.CountOpened(t, isHere))
	}
	if err := Sync(filepath.Join(room, "none")); !errors.Is(err, os.ErrNotExist) {
		t.Error(err)
	}
}

// A staged file is for its user alone, and each has a name of its own. Where nothing can be staged, the directories that were made for that are gone.
func TestWhatCannotBeStaged(t *testing.T) {
	room := t.TempDir()
	staged := mustStage(t, room, "a")
	if about, err := os.Stat(filepath.Join(staged.path, "a")); err != nil || about.Mode() != 0o600 {
		t.Errorf("%v, %v", about, err)
	}
	if _, err := staged.New("a"); !os.IsExist(err) || len(staged.names) != 1 {
		t.Errorf("%v, %v", staged.names, err)
	}
	staged.Drop()
	long := room
	for len(long) < 3850 {
		long = filepath.Join(long, strings.Repeat("x", 200))
	}
	long += "/" + strings.Repeat("y", 4090-len(long))
	if _, err := NewStaged(long); err == nil || len(directories)+len(paths) != 0 {
		t.Errorf("%v, %v, %v", directories, paths, err)
	}
	if names := namesIn(t, room); len(names) != 0 {
		t.Errorf("%d names are left", len(names))
	}
}

// What killed runs left is taken away, and nothing of it stays open.
func TestSweepingLeavesNothingOpen(t *testing.T) {
	room := t.TempDir()
	for _, name := range []string{"a", "b"} {
		if err := os.Mkdir(filepath.Join(room, prefixOfFile+name), 0o700); err != nil {
			t.Fatal(err)
		}
	}
	before := fixture.CountOpened(t, fixture.Any)
	sweep(room, prefixOfFile)
	if after := fixture.CountOpened(t, fixture.Any); after > before || len(namesIn(t, room)) != 0 {
		t.Errorf("%d files were open, and %d are; %v", before, after, namesIn(t, room))
	}
}

// What is open is at a path as long as nothing else is.
func TestWhatIsAtAPath(t *testing.T) {
	path := filepath.Join(t.TempDir(), "file")
	file, err := os.Create(path)
	if err != nil {
		t.Fatal(err)
	}
	if !isAt(file, path) {
		t.Error("it isn't where it was made")
	}
	if err := os.Rename(path, path+"2"); err != nil {
		t.Fatal(err)
	}
	if isAt(file, path) || !isAt(file, path+"2") {
		t.Error("it is where nothing is")
	}
	if err := os.WriteFile(path, nil, 0o600); err != nil {
		t.Fatal(err)
	}
	if isAt(file, path) {
		t.Error("it is where another one is")
	}
	file.Close()
	if isAt(file, path+"2") {
		t.Error("what is closed is anywhere")
	}
}
