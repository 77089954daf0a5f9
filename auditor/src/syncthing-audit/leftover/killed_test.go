package leftover

import (
	"bufio"
	"fmt"
	"math/rand"
	"os"
	"os/exec"
	"path/filepath"
	"strings"
	"syscall"
	"testing"
	"time"
)

// makingOfChild is the variable that has the child make directories and files over and over, until it is killed.
const makingOfChild = "LEFTOVER_TEST_MAKING"

// makeForever makes a directory with a file in it, and a whole file, each time at the same path.
func makeForever(room string) {
	for turn := 0; ; turn++ {
		path, err := Directory()
		if err == nil {
			err = os.WriteFile(filepath.Join(path, "inside"), nil, 0o600)
		}
		if err != nil {
			panic(err)
		}
		if _, err := Unnamed(); err != nil {
			panic(err)
		}
		file, err := NewWhole(room)
		if err == nil {
			fmt.Fprint(file, strings.Repeat("whole\n", 1000))
			err = file.Put(filepath.Join(room, "asked"))
		}
		if err != nil {
			panic(err)
		}
		file.Drop()
		fmt.Println(path)
		if turn%2 == 0 {
			Remove(path)
		}
	}
}

// maker starts a child that makes things in two directories, and gives its first directory.
func maker(t *testing.T, room, temporary string) (*exec.Cmd, string) {
	child := exec.Command(os.Args[0])
	child.Env = append(os.Environ(), roomOfChild+"="+room, makingOfChild+"=1", "TMPDIR="+temporary)
	output, err := child.StdoutPipe()
	if err == nil {
		err = child.Start()
	}
	if err != nil {
		t.Fatal(err)
	}
	lines := bufio.NewReader(output)
	first, err := lines.ReadString('\n')
	if err != nil {
		t.Fatal(err)
	}
	go lines.WriteTo(new(strings.Builder))
	return child, strings.TrimSpace(first)
}

// namesIn gives the names in a directory.
func namesIn(t *testing.T, path string) []string {
	entries, err := os.ReadDir(path)
	if err != nil {
		t.Fatal(err)
	}
	made := []string{}
	for _, one := range entries {
		made = append(made, one.Name())
	}
	return made
}

// What a killed run left is gone once the next one makes something, at whatever moment it was killed. What another run has is there still. A file
// is whole, or there is none.
func TestKilledRunsLeaveNothing(t *testing.T) {
	room, temporary := t.TempDir(), t.TempDir()
	t.Setenv("TMPDIR", temporary)
	mine, err := Directory()
	if err != nil {
		t.Fatal(err)
	}
	left := 0
	for turn := 0; turn < 25 || left == 0 && turn < 500; turn++ { // on a busy machine some have made nothing yet
		child, _ := maker(t, room, temporary)
		time.Sleep(time.Duration(rand.Intn(20000)) * time.Microsecond)
		child.Process.Kill()
		child.Wait()
		left += len(namesIn(t, temporary)) - 1
		if text, err := os.ReadFile(filepath.Join(room, "asked")); err == nil && len(text) != 6000 {
			t.Fatalf("a file has %d bytes", len(text))
		}
	}
	if left == 0 {
		t.Error("no run was killed while it had something")
	}
	next, err := Directory()
	if err != nil {
		t.Fatal(err)
	}
	file, err := NewWhole(room)
	if err != nil {
		t.Fatal(err)
	}
	file.Drop()
	if names := namesIn(t, temporary); len(names) != 2 || !isThere(mine) || !isThere(next) {
		t.Errorf("in the temporary directory: %v", names)
	}
	if names := namesIn(t, room); len(names) > 1 {
		t.Errorf("beside the file: %v", names)
	}
	Remove(mine)
	Remove(next)
}

func isThere(path string) bool {
	_, err := os.Stat(path)
	return err == nil
}

// What has such a name and isn't this user's, isn't locked by a program of before, or is a symlink, stays.
func TestWhatIsNotSwept(t *testing.T) {
	room := t.TempDir()
	t.Setenv("TMPDIR", room)
	outside := filepath.Join(t.TempDir(), "outside")
	for _, path := range []string{outside, filepath.Join(room, "syncthing-audit-old"), filepath.Join(room, "other")} {
		if err := os.Mkdir(path, 0o700); err != nil {
			t.Fatal(err)
		}
	}
	if err := os.Symlink(outside, filepath.Join(room, prefixOfDirectory+"link")); err != nil {
		t.Fatal(err)
	}
	if err := syscall.Mkfifo(filepath.Join(room, prefixOfDirectory+"pipe"), 0o600); err != nil {
		t.Fatal(err)
	}
	if err := os.Mkdir(filepath.Join(room, prefixOfDirectory+"stale"), 0o700); err != nil {
		t.Fatal(err)
	}
	path, err := Directory()
	if err != nil {
		t.Fatal(err)
	}
	defer Remove(path)
	if names := namesIn(t, room); len(names) != 5 || isThere(filepath.Join(room, prefixOfDirectory+"stale")) || !isThere(outside) {
		t.Errorf("%v", names)
	}
}

// Where a file system has no files without a name, the file is a locked one, which takes the other one's place, too.
func TestAWholeFileWithAName(t *testing.T) {
	room := t.TempDir()
	path := filepath.Join(room, "asked")
	for _, text := range []string{"first", "second"} {
		named, err := os.CreateTemp(room, prefixOfFile)
		if err != nil {
			t.Fatal(err)
		}
		file := &Whole{named, named.Name()}
		file.WriteString(text)
		if err := file.Put(path); err != nil {
			t.Fatal(err)
		}
		file.Drop()
		if read, err := os.ReadFile(path); err != nil || string(read) != text || len(namesIn(t, room)) != 1 {
			t.Errorf("%q, %v, %v", read, err, namesIn(t, room))
		}
	}
}
