package leftover

import (
	"errors"
	"os"
	"os/exec"
	"path/filepath"
	"syscall"
	"testing"

	"syncthing-audit/fixture"
)

// Directories above one are made with it, for those whom the user lets in, and are known by their order; one that is there isn't.
func TestDirectoriesThatAreMade(t *testing.T) {
	defer syscall.Umask(syscall.Umask(0o022))
	room := t.TempDir()
	path := filepath.Join(room, "a", "b", "c")
	if err := makeAt(path); err != nil || len(directories) != 3 || directories[0] != filepath.Join(room, "a") || directories[2] != path {
		t.Errorf("%v, %v", directories, err)
	}
	for made := path; made != room; made = filepath.Dir(made) {
		if about, err := os.Stat(made); err != nil || about.Mode() != os.ModeDir|0o755 {
			t.Errorf("%s: %v, %v", made, about, err)
		}
	}
	if err := makeAt(path); err != nil || len(directories) != 3 {
		t.Errorf("%v, %v", directories, err)
	}
	if err := os.WriteFile(filepath.Join(room, "a", "file"), nil, 0o600); err != nil {
		t.Fatal(err)
	}
	removeMade()
	if _, err := os.Stat(filepath.Join(room, "a", "b")); !os.IsNotExist(err) || directories != nil || !isThere(filepath.Join(room, "a", "file")) {
		t.Errorf("%v, %v", directories, err)
	}
	for _, none := range []string{filepath.Join(room, "a", "file"), filepath.Join(room, "a", "file", "below"), "/proc/none", "/proc/none/above", "/proc/none/above/below"} {
		if err := makeAt(none); err == nil || len(directories) != 0 {
			t.Errorf("%s: %v, %v", none, directories, err)
		}
	}
}

// A program that runs is known as long as it does, and its end is told: one behind another.
func TestProgramsThatRun(t *testing.T) {
	for _, row := range []struct {
		words  []string
		status int
	}{{[]string{"true"}, 0}, {[]string{"sh", "-c", "exit 7"}, 7}, {[]string{"/nowhere/program"}, -1}, {[]string{"true"}, 0}} {
		err := Run(exec.Command(row.words[0], row.words[1:]...))
		var failed *exec.ExitError
		switch {
		case row.status == 0 && err == nil:
		case row.status > 0 && errors.As(err, &failed) && failed.ExitCode() == row.status:
		case row.status < 0 && errors.Is(err, os.ErrNotExist):
		default:
			t.Errorf("%q: %v", row.words, err)
		}
		if len(processes) != 0 {
			t.Errorf("%q: %d are known still", row.words, len(processes))
		}
	}
}

// What can't be taken away at once is tried some times more, and then told.
func TestWhatIsTakenAwayAgain(t *testing.T) {
	t.Cleanup(func() { removal = os.RemoveAll })
	for failing := 0; failing < 7; failing++ {
		count := 0
		removal = func(string) error {
			if count++; count <= failing {
				return errTaken
			}
			return nil
		}
		tries := failing + 1
		if tries > 4 {
			tries = 4
		}
		if err := removeWhole("a"); count != tries || (err != nil) != (failing > 3) {
			t.Errorf("it fails %d times: %d tries, %v", failing, count, err)
		}
	}
}

// A directory that is removed has no lock any more, and nothing of it is open.
func TestALockThatIsGivenBack(t *testing.T) {
	t.Setenv("TMPDIR", t.TempDir())
	before := fixture.CountOpened(t, fixture.Any)
	path, err := Directory()
	if err != nil || len(locks) != 1 || len(paths) != 1 {
		t.Fatal(path, err, locks, paths)
	}
	Remove(path)
	if after := fixture.CountOpened(t, fixture.Any); after != before || len(locks)+len(paths) > 0 {
		t.Errorf("%d files were open, and %d are: %v, %v", before, after, locks, paths)
	}
	Remove(path)
}

// A pipe is unread once its reader is closed, and nothing else is.
func TestWhichPipesAreUnread(t *testing.T) {
	reader, writer, err := os.Pipe()
	if err != nil {
		t.Fatal(err)
	}
	defer writer.Close()
	file, err := os.Create(filepath.Join(t.TempDir(), "file"))
	if err != nil {
		t.Fatal(err)
	}
	number := int(file.Fd())
	if isUnread(int(writer.Fd())) || isUnread(number) || isUnread(-1) {
		t.Error("what may be read is unread")
	}
	file.Close()
	reader.Close()
	if !isUnread(int(writer.Fd())) || isUnread(number) {
		t.Error("a pipe that nobody reads")
	}
}
