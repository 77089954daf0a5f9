package wire

import (
	"context"
	"errors"
	"os"
	"path/filepath"
	"strings"
	"testing"

	entries "syncthing-audit/device"
	"syncthing-audit/message"
)

// Where an index that was kept can't be had or begun anew, the device isn't looked at. Of itself a device tells always.
func TestIndexesThatAreNotHad(t *testing.T) {
	observer, why := newObserver(t), errors.New("it can't be had")
	closed := NewIndex(41)
	if err := closed.Close(); err != nil {
		t.Fatal(err)
	}
	for _, kept := range []Keeper{func(string) (*Index, error) { return nil, why }, func(string) (*Index, error) { return closed, nil }} {
		device := newFake(t, serving(observer, (*fake).serve))
		if _, err := observer.Dial(context.Background(), device.listener.Addr().String(), device.id, Look{Kept: kept}, short()); err == nil || errors.As(err, new(Refusal)) {
			t.Errorf("%v", err)
		}
	}
	device := newFake(t, func(f *fake) {
		f.hello()
		folder := message.AppendText(message.AppendText(nil, folderID, []byte("docs")), folderDevice, message.AppendText(nil, deviceID, observer.ID[:]))
		f.write(kindClusterConfig, message.AppendText(message.AppendNumber(nil, 9, 1), configFolder, folder), false)
		f.serve()
	})
	if _, err := dial(observer, device, nil, short()); !errors.Is(err, BadMessage) || !strings.HasSuffix(err.Error(), "without the device itself") {
		t.Error(err)
	}
}

// Each call on an index whose database fails gives its error, and changes nothing of what the index says that it has.
func TestAnIndexThatFails(t *testing.T) {
	index := NewIndex(42)
	if err := take(index, file{name: "a", sequence: 3}); err != nil {
		t.Fatal(err)
	}
	if err := index.db.Close(); err != nil {
		t.Fatal(err)
	}
	index.read = index.db
	taking := func(isUpdate bool) error {
		return (&taker{folder: "docs", limits: &Usual, spent: new(spent), index: index}).take(indexOf("docs", file{name: "b", sequence: 4}), isUpdate)
	}
	over := &Connection{limits: Usual, ended: make(chan struct{})}
	for called, call := range map[string]func() error{
		"get": func() error {
			entry, is, err := index.Get("a")
			if is || entry.Name != "" || entry.Record != nil {
				t.Errorf("%v, %v", entry, is)
			}
			return err
		},
		"each":      func() error { return index.Each(func(entries.Entry) error { t.Error("it is told"); return nil }) },
		"count":     func() error { _, err := index.Count(); return err },
		"put":       func() error { return index.Put(file{name: "b", sequence: 4}.text()) },
		"begin":     func() error { return index.begin(43) },
		"an update": func() error { return taking(true) },
		"an index":  func() error { return taking(false) },
		"snapshot":  func() error { _, err := index.snapshot(); return err },
		"state": func() error {
			read, _, err := (&Shared{over: over, taker: taker{index: index}}).state(3)
			if read != nil {
				t.Error("there is one")
			}
			return err
		},
		"close": index.Close,
	} {
		if err := call(); err == nil || index.ID != 42 || index.Highest != 3 {
			t.Errorf("%s: %v, index %d up to %d", called, err, index.ID, index.Highest)
		}
	}
}

// A record in an index that can't be read is an error for who asks for it, whether by its name or with all others.
func TestARecordThatIsNone(t *testing.T) {
	index := NewIndex(42)
	if err := index.db.Put(keyOf("a"), []byte{0xff}, nil); err != nil {
		t.Fatal(err)
	}
	if _, is, err := index.Get("a"); err == nil || is {
		t.Error(is, err)
	}
	if err := index.Each(func(entries.Entry) error { t.Error("it is told"); return nil }); err == nil {
		t.Error("it is passed over")
	}
}

// An index whose files aren't what was written is damaged, and one that another run has open, or that is nowhere, isn't.
func TestDamagedIndexes(t *testing.T) {
	filled := func() string {
		directory := t.TempDir()
		index, err := OpenIndex(directory)
		if err == nil {
			err = take(index, file{name: "a", sequence: 1})
		}
		if err == nil {
			err = index.Close()
		}
		if err != nil {
			t.Fatal(err)
		}
		return directory
	}
	change := func(pattern string, text func([]byte) []byte) string {
		directory := filled()
		paths, err := filepath.Glob(filepath.Join(directory, pattern))
		if err != nil || len(paths) == 0 {
			t.Fatal(pattern, err)
		}
		for _, path := range paths {
			had, err := os.ReadFile(path)
			if err == nil {
				err = os.WriteFile(path, text(had), 0o600)
			}
			if err != nil {
				t.Fatal(err)
			}
		}
		return directory
	}
	head := func(text string) string {
		directory := filled()
		index, err := OpenIndex(directory)
		if err == nil {
			err = index.db.Put(keyOfHead, []byte(text), nil)
		}
		if err == nil {
			err = index.Close()
		}
		if err != nil {
			t.Fatal(err)
		}
		return directory
	}
	isOpen := filled()
	index, err := OpenIndex(isOpen)
	if err != nil {
		t.Fatal(err)
	}
	defer index.Close()
	none := filepath.Join(written(t), "index")
	for why, row := range map[string]struct {
		directory string
		isDamaged bool
	}{
		"its manifest": {change("MANIFEST-*", func(text []byte) []byte { return append([]byte("odd"), text...) }), true},
		"no manifest":  {change("CURRENT", func([]byte) []byte { return []byte("odd\n") }), true},
		"a short head": {head("short"), true},
		"a long head":  {head(strings.Repeat("l", bytesOfHead+1)), true},
		"is open":      {isOpen, false},
		"below a file": {none, false},
	} {
		opened, err := OpenIndex(row.directory)
		if err == nil || opened != nil || IsDamaged(err) != row.isDamaged || !strings.Contains(err.Error(), row.directory) {
			t.Errorf("%s: %v, damaged %v", why, err, IsDamaged(err))
		}
		if err := os.RemoveAll(row.directory); err != nil && why != "below a file" {
			t.Error(err)
		}
	}
}

// written writes a file, and gives its path.
func written(t *testing.T) string {
	path := filepath.Join(t.TempDir(), "file")
	if err := os.WriteFile(path, nil, 0o600); err != nil {
		t.Fatal(err)
	}
	return path
}

// Where a key can't be put in its place it isn't used, and nothing else is left in the directory.
func TestAKeyThatCannotBePut(t *testing.T) {
	directory := filepath.Join(t.TempDir(), "observer")
	if err := os.MkdirAll(filepath.Join(directory, nameOfKey, "full"), 0o700); err != nil {
		t.Fatal(err)
	}
	if observer, err := Create(directory); !errors.Is(err, BadDirectory) || observer != nil || !strings.Contains(err.Error(), "rename") {
		t.Error(err)
	}
	if left, err := os.ReadDir(directory); err != nil || len(left) != 1 {
		t.Errorf("%v is left", left)
	}
	if observer, err := Open(filepath.Join(t.TempDir(), "none")); !errors.Is(err, BadDirectory) || observer != nil {
		t.Errorf("a directory that isn't there: %v", err)
	}
	if err := makeKey(filepath.Join(t.TempDir(), "none")); err == nil {
		t.Error("a key is made nowhere")
	}
}
