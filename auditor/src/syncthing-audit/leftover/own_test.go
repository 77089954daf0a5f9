package leftover

import (
	"errors"
	"os"
	"os/exec"
	"os/signal"
	"path/filepath"
	"reflect"
	"strings"
	"syscall"
	"testing"
	"time"

	"golang.org/x/sys/unix"

	"syncthing-audit/fixture"
)

// must ends a test where something that it needs fails.
func must(t *testing.T, err error) {
	t.Helper()
	if err != nil {
		t.Fatal(err)
	}
}

// A lock is had by whoever asks first. Without one, nothing is said to be gone but what is, or what another one has: where a thing can't be opened for
// another reason, it is there. Nothing stays open of what has no lock.
func TestWhoHasALock(t *testing.T) {
	room := t.TempDir()
	path := filepath.Join(room, "own")
	must(t, os.Mkdir(path, 0o700))
	must(t, os.Symlink(path, filepath.Join(room, "link")))
	for _, row := range []struct {
		name             string
		isLocked, isMine bool
	}{{"own", true, true}, {"own", false, false}, {"none", false, false}, {"link", false, true}} {
		before := fixture.CountOpened(t, func(at string) bool { return at == path })
		lock, isMine := lockOf(filepath.Join(room, row.name))
		if (lock != nil) != row.isLocked || isMine != row.isMine {
			t.Errorf("%s: %v, %v", row.name, lock, isMine)
		}
		after := fixture.CountOpened(t, func(at string) bool { return at == path })
		if (after > before) != row.isLocked {
			t.Errorf("%s: %d are open, and %d before", row.name, after, before)
		}
		if lock != nil {
			defer lock.Close()
		}
	}
}

// What this run has is locked as long as it has it: nobody takes it away, whatever it is, and be it with or without a name at first.
func TestWhatARunHasStays(t *testing.T) {
	room := t.TempDir()
	t.Setenv("TMPDIR", room)
	directory, err := Directory()
	must(t, err)
	unnamed, err := NewWhole(room)
	must(t, err)
	must(t, unnamed.name(room))
	withNames(t)
	named, err := NewWhole(room)
	must(t, err)
	staged := mustStage(t, room, "a")
	sweep(room, prefixOfDirectory)
	sweep(room, prefixOfFile)
	for _, path := range []string{directory, unnamed.path, named.path, staged.path} {
		if _, isKnown := paths[path]; !isKnown || !isThere(path) {
			t.Errorf("%s is known: %v, and there: %v", path, isKnown, isThere(path))
		}
	}
	Remove(directory)
	unnamed.Drop()
	named.Drop()
	staged.Drop()
	if names := namesIn(t, room); len(names)+len(paths)+len(locks) != 0 {
		t.Errorf("%v, %v, %v", names, paths, locks)
	}
}

// Of what has such a name, a run takes away what is this user's, is a directory or a file, and has no lock. All else stays.
func TestWhatIsSwept(t *testing.T) {
	room := t.TempDir()
	at := func(name string) string { return filepath.Join(room, prefixOfFile+name) }
	for _, name := range []string{"directory", "locked"} {
		must(t, os.MkdirAll(filepath.Join(at(name), "below"), 0o700))
	}
	must(t, os.WriteFile(at("file"), nil, 0o600))
	must(t, os.WriteFile(filepath.Join(room, "other"), nil, 0o600))
	must(t, syscall.Mkfifo(at("pipe"), 0o600))
	must(t, os.Symlink(at("locked"), at("link")))
	left := []string{at("link"), at("locked"), at("pipe")}
	if os.Geteuid() == 0 { // only then it can be another one's
		must(t, os.WriteFile(at("strange"), nil, 0o600))
		must(t, os.Chown(at("strange"), 4711, 4711))
		left = append(left, at("strange"))
	}
	lock, isMine := lockOf(at("locked"))
	if !isMine {
		t.Fatal("it has no lock")
	}
	defer lock.Close()
	file, err := NewWhole(room)
	must(t, err)
	file.Drop()
	if is, _ := filepath.Glob(at("*")); !reflect.DeepEqual(is, left) || !isThere(filepath.Join(room, "other")) {
		t.Errorf("%v, not %v", is, left)
	}
}

// A file without a name that is to take another one's place has a name of its own before. Where such names are taken, it has the next one.
func TestNamesThatAreTaken(t *testing.T) {
	room := t.TempDir()
	file, err := NewWhole(room)
	must(t, err)
	if file.path != "" {
		t.Skip("the file system has no files without a name")
	}
	second, err := NewWhole(room)
	must(t, err)
	third, err := NewWhole(room)
	must(t, err)
	for _, taking := range []*Whole{second, third} {
		must(t, taking.name(room))
	}
	must(t, os.WriteFile(filepath.Join(room, "asked"), []byte("old"), 0o600))
	_, err = file.WriteString("new")
	must(t, err)
	must(t, file.Put(filepath.Join(room, "asked")))
	if text, err := os.ReadFile(filepath.Join(room, "asked")); string(text) != "new" || second.path == third.path || !isThere(second.path) || !isThere(third.path) {
		t.Errorf("%q, %v, %s, %s", text, err, second.path, third.path)
	}
	for _, open := range []*Whole{file, second, third} {
		open.Drop()
	}
	if names := namesIn(t, room); len(names) != 1 || len(paths) != 0 {
		t.Errorf("%v, %v", names, paths)
	}
}

// What a system can't have be on the disk, as a pipe, gets its name all the same. Any other error is told, and there is no such name.
func TestWhatCannotBeSynced(t *testing.T) {
	for _, isClosed := range []bool{false, true} {
		room := t.TempDir()
		from, to := filepath.Join(room, "from"), filepath.Join(room, "to")
		must(t, os.WriteFile(from, nil, 0o600))
		reader, writer, err := os.Pipe()
		must(t, err)
		defer reader.Close()
		if isClosed {
			writer.Close()
		}
		err = (&Whole{writer, from}).Put(to)
		if isThere(to) == isClosed || errors.Is(err, os.ErrClosed) != isClosed || (err != nil) != isClosed {
			t.Errorf("it is closed: %v; it is there: %v; %v", isClosed, isThere(to), err)
		}
		writer.Close()
	}
}

// Where the directory of staged files is gone, that is told, even if no file is in it.
func TestStagedFilesThatAreGone(t *testing.T) {
	for _, names := range [][]string{nil, {"a"}} {
		room := t.TempDir()
		staged := mustStage(t, room, names...)
		must(t, os.RemoveAll(staged.path))
		if err := staged.Put(); !errors.Is(err, os.ErrNotExist) {
			t.Errorf("%v: %v", names, err)
		}
		staged.Drop()
		if left := namesIn(t, room); len(left)+len(paths)+len(locks) != 0 {
			t.Errorf("%v: %v, %v, %v", names, left, paths, locks)
		}
	}
}

// A file of which not all can be written gets no name, and what stood there stays.
func TestFilesThatCannotBeWrittenWhole(t *testing.T) {
	signal.Ignore(syscall.SIGXFSZ)
	defer signal.Reset(syscall.SIGXFSZ)
	const most = 1 << 20
	var had unix.Rlimit
	must(t, unix.Getrlimit(unix.RLIMIT_FSIZE, &had))
	path := filepath.Join(t.TempDir(), "asked")
	for _, standing := range []string{"", "old"} {
		if standing != "" {
			must(t, os.WriteFile(path, []byte(standing), 0o600))
		}
		must(t, unix.Setrlimit(unix.RLIMIT_FSIZE, &unix.Rlimit{Cur: most, Max: had.Max}))
		err := Write(path, make([]byte, most+1))
		must(t, unix.Setrlimit(unix.RLIMIT_FSIZE, &had))
		if text, _ := os.ReadFile(path); !errors.Is(err, syscall.EFBIG) || string(text) != standing || isThere(path) != (standing != "") {
			t.Errorf("%d bytes stand there: %v", len(text), err)
		}
	}
}

// What is gone is looked at once more after a while, since another thread may make it anew.
func TestWhatIsGoneIsLookedAtAgain(t *testing.T) {
	began := time.Now()
	removeUntilGone(map[string]struct{}{filepath.Join(t.TempDir(), "none"): {}})
	if took := time.Since(began); took < quietTime {
		t.Errorf("that was all in %v", took)
	}
}

// A signal that is ignored as the program starts stays so. Another one ends it as before.
func TestASignalThatIsIgnored(t *testing.T) {
	room := t.TempDir()
	child := exec.Command("sh", "-c", `trap '' HUP; exec "$0"`, os.Args[0])
	child.Env = append(os.Environ(), roomOfChild+"="+room, stagingOfChild+"=1")
	output, err := child.StdoutPipe()
	must(t, err)
	must(t, child.Start())
	_, err = output.Read(make([]byte, 7))
	must(t, err)
	must(t, child.Process.Signal(syscall.SIGHUP))
	must(t, child.Process.Signal(syscall.SIGTERM))
	child.Wait()
	if names := namesIn(t, room); len(names) != 0 || child.ProcessState.ExitCode() != 128+15 {
		t.Errorf("%v, %d", names, child.ProcessState.ExitCode())
	}
}

// What can't be seen to be gone is looked at until it is.
func TestWhatIsNotSeenToBeGone(t *testing.T) {
	file, began := filepath.Join(t.TempDir(), "file"), time.Now()
	must(t, os.WriteFile(file, nil, 0o600))
	const least = 8 * quietTime
	isOver := make(chan error)
	go func() {
		time.Sleep(least)
		isOver <- os.Remove(file)
	}()
	removeUntilGone(map[string]struct{}{filepath.Join(file, "below"): {}}) // the system says that a file is above it
	took := time.Since(began)
	must(t, <-isOver)
	if took < least {
		t.Errorf("it was looked at for %v", took)
	}
}

// Where a file without a name can't have one for a moment, that is told, and what stands there stays.
func TestAFileThatCannotBeNamed(t *testing.T) {
	room := t.TempDir()
	file, err := NewWhole(room)
	must(t, err)
	defer file.Drop()
	if file.path != "" {
		t.Skip("the file system has no files without a name")
	}
	long := room
	for len(long) < 3850 {
		long = filepath.Join(long, strings.Repeat("x", 200))
	}
	long += "/" + strings.Repeat("y", 4085-len(long))
	must(t, os.MkdirAll(long, 0o700))
	path := filepath.Join(long, "asked")
	must(t, os.WriteFile(path, []byte("old"), 0o600))
	if err := file.Put(path); !errors.Is(err, syscall.ENAMETOOLONG) || file.path != "" || len(paths) != 0 {
		t.Errorf("%v: %q, %v", err, file.path, paths)
	}
	if text, err := os.ReadFile(path); string(text) != "old" {
		t.Errorf("%q, %v", text, err)
	}
}
