package device

import (
	"fmt"
	"os"
	"path/filepath"
	"runtime/debug"
	"strings"
	"testing"

	"github.com/syncthing/syncthing/lib/db"
	"github.com/syncthing/syncthing/lib/db/backend"
	"github.com/syncthing/syncthing/lib/protocol"
	"github.com/syndtr/goleveldb/leveldb"
	"syncthing-audit/choice"
	"syncthing-audit/fixture"
)

// counting is an index that counts which of its readers go on.
type counting struct {
	backend.Backend
	alive, begun *int
}

type countingEntries struct {
	backend.Iterator
	of counting
}

func (c counting) NewPrefixIterator(prefix []byte) (backend.Iterator, error) {
	entries, err := c.Backend.NewPrefixIterator(prefix)
	if err == nil {
		*c.alive++
		*c.begun++
	}
	return countingEntries{entries, c}, err
}

func (c countingEntries) Release() {
	*c.of.alive--
	c.Iterator.Release()
}

// Whoever goes through an index lets go of it in the end, and of each of its readers.
func TestNothingGoesOnInAnIndex(t *testing.T) {
	index := indexInMemory(t, false, []protocol.FileInfo{hello(func(*protocol.FileInfo) {})}, nil)
	alive, begun := 0, 0
	counted := counting{index.home.backend, &alive, &begun}
	index.home.backend = counted
	for called, read := range map[string]func() error{
		"own entries":    func() error { return index.Own(choice.Names{}, func(Entry) bool { return true }) },
		"of none":        func() error { _, err := index.countOf(protocol.DeviceID{77}, choice.Names{}); return err },
		"times of files": func() error { _, err := hasTimes(counted); return err },
	} {
		begun = 0
		if err := read(); err != nil || alive != 0 || begun == 0 {
			t.Errorf("%s: of %d readers %d go on: %v", called, begun, alive, err)
		}
	}
}

// A look at the sequences of an index lets go of what it goes through, whatever it finds.
func TestNothingGoesOnBehindSequences(t *testing.T) {
	opened, err := leveldb.OpenFile(t.TempDir(), nil)
	if err != nil {
		t.Fatal(err)
	}
	defer opened.Close()
	number := []byte{0, 0, 0, 5}
	for place, key := range [][]byte{append([]byte{db.KeyTypeFolderIdx}, number...), sequencesBehind(number, 2).Start} {
		if err := opened.Put(key, []byte("docs"), nil); err != nil {
			t.Fatal(err)
		}
		if err := checkSequences(opened); (err != nil) != (place == 1) {
			t.Error(err)
		}
		if alive, err := opened.GetProperty("leveldb.aliveiters"); alive != "0" || err != nil {
			t.Errorf("%s go on: %v", alive, err)
		}
	}
}

// Who asks whether a Syncthing runs on an index gives the lock back at once, and has no file of it open then; nor has who fails to copy a file.
func TestNothingStaysOpenOfAnIndex(t *testing.T) {
	defer debug.SetGCPercent(debug.SetGCPercent(-1)) // by which files are closed, too
	room := t.TempDir()
	dir := filepath.Join(room, "home")
	index, err := backend.OpenLevelDB(filepath.Join(dir, databaseName), backend.TuningSmall)
	if err != nil {
		t.Fatal(err)
	}
	index.Close()
	open := func() int {
		return fixture.CountOpened(t, func(path string) bool { return strings.HasPrefix(path, room) || strings.HasSuffix(path, "/mem") })
	}
	for _, isRun := range []bool{false, true} {
		if isRun {
			if index, err = backend.OpenLevelDB(filepath.Join(dir, databaseName), backend.TuningSmall); err != nil {
				t.Fatal(err)
			}
			defer index.Close()
		}
		before := open()
		if IsHeld(dir) != isRun || IsStopped(dir, "") == isRun || (CheckRuns(dir, "") == nil) != isRun {
			t.Errorf("runs %v: it isn't seen", isRun)
		}
		if _, err := readManifest(filepath.Join(dir, databaseName)); err != nil {
			t.Error(err)
		}
		if err := copyFile("/proc/self/mem", filepath.Join(room, fmt.Sprint("copy", isRun))); err == nil { // a file whose begin nobody reads
			t.Error("what can't be read is copied")
		}
		if now := open(); now != before {
			t.Errorf("runs %v: %d files are open, and %d were", isRun, now, before)
		}
	}
}

// The bytes that a copy of a running device's index is said to have are those of its files.
func TestBytesOfALiveCopy(t *testing.T) {
	from, to := t.TempDir(), t.TempDir()
	fill(t, from)
	said, err := copyLive(from, to, func(string) error { return nil })
	if err != nil {
		t.Fatal(err)
	}
	entries, err := os.ReadDir(to)
	sum := int64(0)
	for _, entry := range entries {
		about, err := entry.Info()
		if err != nil {
			t.Fatal(err)
		}
		sum += about.Size()
	}
	if err != nil || said.Bytes != sum || sum == 0 {
		t.Errorf("%d bytes are told of %d: %v", said.Bytes, sum, err)
	}
}
