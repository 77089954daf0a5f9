package wire

import (
	"fmt"
	"os"
	"os/exec"
	"path/filepath"
	"strconv"
	"syscall"
	"testing"
	"time"
)

// An index that is opened again has what was taken, and goes on from there.
func TestIndexStays(t *testing.T) {
	directory := t.TempDir()
	index, err := OpenIndex(directory)
	if err != nil || index.Highest != 0 {
		t.Fatal(index, err)
	}
	if err := index.begin(42); err != nil {
		t.Fatal(err)
	}
	if err := take(index, file{name: "b", data: "b", sequence: 1}, file{name: "a", data: "a", sequence: 2}); err != nil {
		t.Fatal(err)
	}
	if _, err := OpenIndex(directory); err == nil {
		t.Error("two have it open")
	}
	if err := index.Close(); err != nil {
		t.Fatal(err)
	}
	again, err := OpenIndex(directory)
	if err != nil {
		t.Fatal(err)
	}
	defer again.Close()
	if count, err := again.Count(); err != nil || again.ID != 42 || again.Highest != 2 || count != 2 {
		t.Errorf("%d, %d, %d names, %v", again.ID, again.Highest, count, err)
	}
	if a := recordIn(t, again, "a"); a.Content.Size != 1 || a.Sequence != 2 {
		t.Errorf("%+v", a)
	}
}

// take takes records as an update.
func take(index *Index, files ...file) error {
	return (&taker{folder: "docs", limits: &Usual, spent: new(spent), index: index}).take(indexOf("docs", files...), true)
}

// A snapshot stays as it is while more is taken.
func TestSnapshot(t *testing.T) {
	index := NewIndex(42)
	if err := take(index, file{name: "a", sequence: 1}); err != nil {
		t.Fatal(err)
	}
	before, err := index.snapshot()
	if err == nil {
		err = take(index, file{name: "b", sequence: 2})
	}
	if err != nil {
		t.Fatal(err)
	}
	count, err := before.Count()
	later, _ := index.Count()
	if err != nil || count != 1 || before.Highest != 1 || later != 2 || index.Highest != 2 {
		t.Errorf("%d names up to %d, then %d, %v", count, before.Highest, later, err)
	}
}

// filling is the variable that has a process fill an index until it is killed.
const filling = "SYNCTHING_AUDIT_FILLS_INDEX"

// Whenever a process is killed, what the index says that it has is there: all up to its highest sequence.
func TestKilled(t *testing.T) {
	if directory := os.Getenv(filling); directory != "" {
		fill(directory)
	}
	directory := t.TempDir()
	last := int64(0)
	for n := 0; n < 8 || last == 0 && n < 60; n++ { // on a busy machine nothing may be written at first
		command := exec.Command(os.Args[0], "-test.run", "^TestKilled$")
		command.Env = append(os.Environ(), filling+"="+directory)
		if err := command.Start(); err != nil {
			t.Fatal(err)
		}
		awaitFile(t, filepath.Join(directory, "CURRENT")) // an index that was killed as it was made is none yet
		time.Sleep(time.Duration(100+60*n) * time.Millisecond)
		command.Process.Signal(syscall.SIGKILL)
		command.Wait()
		last = checkFilled(t, directory, last)
	}
	if last == 0 {
		t.Error("nothing was ever written")
	}
}

// awaitFile waits until something is at a path, for a minute at most.
func awaitFile(t *testing.T, path string) {
	for tries := 0; tries < 600; tries++ {
		if _, err := os.Stat(path); err == nil {
			return
		}
		time.Sleep(100 * time.Millisecond)
	}
	t.Fatal("nothing came to ", path)
}

// fill fills an index, three records in a message, and never ends.
func fill(directory string) {
	index, err := OpenIndex(directory)
	for next := uint64(index.Highest) + 1; err == nil; next += 3 {
		files := []file{}
		for place := uint64(0); place < 3; place++ {
			files = append(files, file{name: strconv.FormatUint(next+place, 10), sequence: next + place})
		}
		err = take(index, files...)
	}
	fmt.Fprintln(os.Stderr, err)
	os.Exit(1)
}

// checkFilled checks that an index has all up to its highest sequence, which isn't below the one before.
func checkFilled(t *testing.T, directory string, before int64) int64 {
	t.Helper()
	index, err := OpenIndex(directory)
	if err != nil {
		t.Fatal(err)
	}
	defer index.Close()
	count, err := index.Count()
	if err != nil || index.Highest < before || count != index.Highest || index.Highest%3 != 0 {
		t.Errorf("%d names up to %d, and %d before: %v", count, index.Highest, before, err)
	}
	return index.Highest
}
