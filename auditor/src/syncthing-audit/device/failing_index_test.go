package device

import (
	"errors"
	"os"
	"path/filepath"
	"testing"
	"time"

	"github.com/syncthing/syncthing/lib/db"
	"github.com/syncthing/syncthing/lib/db/backend"
	"github.com/syncthing/syncthing/lib/protocol"
	"github.com/syndtr/goleveldb/leveldb"
	"syncthing-audit/choice"
	"syncthing-audit/part"
)

// failing is an index of which each reading fails but for the first ones.
type failing struct {
	backend.Backend
	left *int
}

var errFails = errors.New("the index fails")

// takes says whether one more reading is made.
func (f failing) takes() bool {
	*f.left--
	return *f.left >= 0
}

func (f failing) Get(key []byte) ([]byte, error) {
	if !f.takes() {
		return nil, errFails
	}
	return f.Backend.Get(key)
}

func (f failing) NewPrefixIterator(prefix []byte) (backend.Iterator, error) {
	if !f.takes() {
		return nil, errFails
	}
	entries, err := f.Backend.NewPrefixIterator(prefix)
	return failingEntries{entries, f}, err
}

type failingEntries struct {
	backend.Iterator
	of failing
}

func (f failingEntries) Next() bool { return f.of.takes() && f.Iterator.Next() }

func (f failingEntries) Error() error {
	if *f.of.left < 0 {
		return errFails
	}
	return f.Iterator.Error()
}

// Whichever reading of an index fails, that is an error, and never an index of fewer names or of another schema.
func TestWhicheverReadingOfAnIndexFails(t *testing.T) {
	dir, _ := aHome(t)
	index := firstIndex(t, dir)
	home := index.home
	whole := home.backend
	defer func() { home.backend = whole }()
	for called, row := range map[string]struct {
		read  func(backend.Backend) error
		least int // how many readings it takes
	}{
		"its schema": {checkSchema, 2},
		"own entries": {func(of backend.Backend) error {
			home.backend = of
			return index.Own(choice.Names{}, func(Entry) bool { return true })
		}, 6},
		"another device's": {func(of backend.Backend) error {
			home.backend = of
			return index.View(part.View{Device: otherDevice.String(), Max: 1}, choice.Names{}, func(Entry) bool { return true })
		}, 6},
		"its bytes": {func(of backend.Backend) error {
			home.backend = of
			_, err := index.Bytes(choice.Names{Prefix: nameOfSequence(1)})
			return err
		}, 6},
	} {
		for readings := 0; ; readings++ {
			left := readings
			err := row.read(failing{whole, &left})
			if err == nil && left >= 0 {
				if readings < row.least {
					t.Errorf("%s takes %d readings", called, readings)
				}
				break
			}
			if !errors.Is(err, errFails) {
				t.Errorf("%s, of which %d readings are made: %v", called, readings, err)
			}
			if readings > 10000 {
				t.Fatal(called, "goes on and on")
			}
		}
	}
}

// A device, or a folder, of which an index has nothing has no entries there, and that is no error.
func TestWhatAnIndexHasNotHeardOf(t *testing.T) {
	index := indexInMemory(t, false, []protocol.FileInfo{hello(func(*protocol.FileInfo) {})}, nil)
	none := func(Entry) bool { t.Error("there is an entry"); return true }
	if err := index.View(part.View{Device: protocol.DeviceID{77}.String()}, choice.Names{}, none); err != nil {
		t.Error(err)
	}
	if err := index.View(part.View{Device: "none"}, choice.Names{}, none); err == nil {
		t.Error("what is no device has a view")
	}
	for of, due := range map[protocol.DeviceID]int64{protocol.LocalDeviceID: 1, {77}: 0} {
		if count, err := index.countOf(of, choice.Names{}); err != nil || count != due {
			t.Errorf("%v: %d, not %d: %v", of, count, due, err)
		}
	}
	index.Config.ID = "none"
	for number := byte(1); number < 4; number++ { // entries of other folders, of which one has the number that a device has
		if err := index.home.backend.Put([]byte{db.KeyTypeDevice, 0, 0, 0, number, 0, 0, 0, 1, 'a'}, nil); err != nil {
			t.Fatal(err)
		}
	}
	for _, of := range []protocol.DeviceID{protocol.LocalDeviceID, otherDevice} {
		if count, err := index.countOf(of, choice.Names{}); err != nil || count != 0 {
			t.Errorf("%v: %d, %v", of, count, err)
		}
	}
}

// What can't be looked at of a home is an error wherever it is due, and no index that is old, unchanged or without entries behind its greatest sequence.
func TestIndexesThatCannotBeLookedAt(t *testing.T) {
	none := filepath.Join(t.TempDir(), "none")
	alone := t.TempDir()
	if err := os.Mkdir(filepath.Join(alone, databaseName), 0o700); err != nil {
		t.Fatal(err)
	}
	closed, err := leveldb.OpenFile(t.TempDir(), nil)
	if err == nil {
		err = closed.Put([]byte{db.KeyTypeFolderIdx, 0, 0, 0, 1}, []byte("docs"), nil)
	}
	if err == nil {
		err = closed.Close()
	}
	if err != nil {
		t.Fatal(err)
	}
	for called, look := range map[string]func() error{
		"when it was written":       func() error { _, err := writtenAt(none); return err },
		"its age":                   func() error { return (&Home{Dir: none}).noteAge() },
		"the age of no config.xml":  func() error { return (&Home{Dir: alone}).noteAge() },
		"a newer one":               func() error { return (&Home{Dir: none}).noteNewer() },
		"its files":                 func() error { _, err := listingOf(none); return err },
		"whether it is as before":   func() error { return (&Home{Dir: none}).checkUnchanged() },
		"its bytes":                 func() error { _, err := bytesFor(none); return err },
		"its identity":              func() error { _, err := (&Home{Dir: none}).Identity(); return err },
		"a greatest sequence":       func() error { _, err := greatestSequence(closed, []byte{0, 0, 0, 1}); return err },
		"what is behind those":      func() error { return checkSequences(closed) },
		"its manifest":              func() error { _, err := readManifest(none); return err },
		"the tables of a manifest":  func() error { return (&manifest{}).check(none) },
		"its files to be copied":    func() error { return copyFiles(none, alone) },
		"a place for its copy":      func() error { return copyFiles(dirOf(t, "one"), none) },
		"what an earlier copy left": func() error { return (&liveCopy{to: none, tables: map[int64]bool{}}).clear(&manifest{}) },
		"a directory in a copy": func() error {
			to := dirOf(t)
			if err := os.MkdirAll(filepath.Join(to, "000001.ldb", "full"), 0o700); err != nil {
				t.Fatal(err)
			}
			return (&liveCopy{to: to, tables: map[int64]bool{}}).clear(&manifest{})
		},
	} {
		if err := look(); err == nil {
			t.Errorf("%s: no error", called)
		}
	}
	if IsWrittenSince(none, time.Time{}) || IsStopped(none, "") {
		t.Error("an index that isn't there was written, or is stopped")
	}
}

// dirOf makes a directory with these empty files.
func dirOf(t *testing.T, names ...string) string {
	made := t.TempDir()
	for _, name := range names {
		put(t, filepath.Join(made, name), "")
	}
	return made
}
