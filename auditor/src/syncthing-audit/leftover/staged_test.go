package leftover

import (
	"fmt"
	"os"
	"os/exec"
	"path/filepath"
	"reflect"
	"strings"
	"syscall"
	"testing"
	"time"
)

// mustStage makes files that are to have these names in a directory.
func mustStage(t *testing.T, directory string, names ...string) *Staged {
	staged, err := NewStaged(directory)
	if err != nil {
		t.Fatal(err)
	}
	for _, name := range names {
		file, err := staged.New(name)
		if err != nil {
			t.Fatal(err)
		}
		fmt.Fprint(file, name)
		file.Close()
	}
	return staged
}

// Files get their names all together. A directory that was asked for goes with those above it that were made for it, unless files are put into it or
// something else is in it.
func TestStagedFiles(t *testing.T) {
	room := t.TempDir()
	path := filepath.Join(room, "above", "asked")
	for _, one := range []struct {
		why  string
		end  func(*Staged) error
		left []string
	}{
		{"they are put", (*Staged).Put, []string{"a", "b"}},
		{"they are put, then dropped", func(s *Staged) error { err := s.Put(); s.Drop(); return err }, []string{"a", "b"}},
		{"they are dropped", func(s *Staged) error { s.Drop(); return nil }, nil},
		{"something else is there", func(s *Staged) error { os.WriteFile(filepath.Join(path, "c"), nil, 0o600); s.Drop(); return nil }, []string{"c"}},
	} {
		staged := mustStage(t, path, "a", "b")
		if here := namesIn(t, path); len(here) != 1 || here[0][0] != '.' {
			t.Errorf("%s: %v are there before", one.why, here)
		}
		if err := one.end(staged); err != nil || len(directories) != 0 || len(paths) != 0 || len(locks) != 0 {
			t.Errorf("%s: %v, %v, %v", one.why, err, directories, paths)
		}
		if left, _ := filepath.Glob(path + "/*"); len(left) != len(one.left) || len(left) > 0 && !reflect.DeepEqual(namesIn(t, path), one.left) {
			t.Errorf("%s: left are %v", one.why, left)
		}
		if _, err := os.Stat(filepath.Dir(path)); (err == nil) != (one.left != nil) {
			t.Errorf("%s: the directory above: %v", one.why, err)
		}
		os.RemoveAll(filepath.Dir(path))
	}
}

// A file that came meanwhile stays, and none of the others gets its name.
func TestStagedFilesTakeNoPlace(t *testing.T) {
	room := t.TempDir()
	staged := mustStage(t, room, "a", "b")
	os.WriteFile(filepath.Join(room, "b"), []byte("other"), 0o600)
	if err := staged.Put(); !os.IsExist(err) {
		t.Error(err)
	}
	staged.Drop()
	if text, _ := os.ReadFile(filepath.Join(room, "b")); string(text) != "other" || len(namesIn(t, room)) != 1 {
		t.Errorf("%q, %v", text, namesIn(t, room))
	}
}

// Where something else than a directory stands, that is said.
func TestStagedWhereNoDirectoryIs(t *testing.T) {
	path := filepath.Join(t.TempDir(), "file")
	os.WriteFile(path, nil, 0o600)
	for _, one := range []string{path, filepath.Join(path, "below")} {
		if _, err := NewStaged(one); err == nil {
			t.Errorf("a directory is made at %s", one)
		}
	}
}

// stagingOfChild is the variable that has the child stage files and wait.
const stagingOfChild = "LEFTOVER_TEST_STAGING"

// stageAndWait stages files in a directory, and waits to be killed.
func stageAndWait(room string) {
	staged, _ := NewStaged(room)
	file, _ := staged.New("a")
	file.WriteString("half of")
	fmt.Println("staged")
	time.Sleep(time.Minute)
}

// A kill before all are whole leaves none with its name, and the next run takes away what is left.
func TestAKillLeavesNothingStaged(t *testing.T) {
	room := t.TempDir()
	child := exec.Command(os.Args[0])
	child.Env = append(os.Environ(), roomOfChild+"="+room, stagingOfChild+"=1")
	output, err := child.StdoutPipe()
	if err == nil {
		err = child.Start()
	}
	if err != nil {
		t.Fatal(err)
	}
	output.Read(make([]byte, 7))
	child.Process.Signal(syscall.SIGKILL)
	child.Wait()
	if left := namesIn(t, room); len(left) != 1 || !strings.HasPrefix(left[0], prefixOfFile) {
		t.Errorf("left are %v", left)
	}
	if err := mustStage(t, room, "b").Put(); err != nil || !reflect.DeepEqual(namesIn(t, room), []string{"b"}) {
		t.Errorf("%v, %v", err, namesIn(t, room))
	}
}
