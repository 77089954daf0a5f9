package device

import (
	"errors"
	"os"
	"path/filepath"
	"strings"
	"testing"

	"github.com/syncthing/syncthing/lib/protocol"
	"syncthing-audit/choice"
	"syncthing-audit/fixture"
)

// What goes away once an index was opened is told, and nothing of the home stays open.
func TestWhatGoesAwayWhileAHomeIsOpened(t *testing.T) {
	for _, name := range []string{"config.xml", databaseName} {
		for _, open := range []func(*Home) error{(*Home).openIndex, (*Home).openLiveIndex} {
			dir, _ := aHome(t)
			copied := ""
			home, err := openWith(dir, "", nil, func(home *Home) error {
				err := open(home)
				copied = home.copied
				if err == nil {
					err = os.RemoveAll(filepath.Join(dir, name))
				}
				return err
			})
			if home != nil || !errors.Is(err, os.ErrNotExist) {
				t.Errorf("without %s: %v", name, err)
			}
			checkClosed(t, copied)
		}
	}
}

// checkClosed says which file of a copy is open or there still.
func checkClosed(t *testing.T, copied string) {
	t.Helper()
	if count := fixture.CountOpened(t, func(path string) bool { return strings.HasPrefix(path, copied) }); copied == "" || count > 0 {
		t.Errorf("%d files of %q are open still", count, copied)
	}
	if _, err := os.Stat(copied); !errors.Is(err, os.ErrNotExist) {
		t.Errorf("the copy stays: %v", err)
	}
}

// A home that is closed has no file open.
func TestAHomeThatIsClosed(t *testing.T) {
	dir, _ := aHome(t)
	for _, open := range []func(dir, data string, maps ...Map) (*Home, error){Open, OpenLive} {
		home, err := open(dir, "")
		if err != nil {
			t.Fatal(err)
		}
		if count := fixture.CountOpened(t, func(path string) bool { return strings.HasPrefix(path, home.copied) }); count == 0 {
			t.Error("nothing is open of an index that is read")
		}
		copied := home.copied
		home.Close()
		checkClosed(t, copied)
	}
}

// Names of each kind are counted, those that are deleted, too.
func TestNamesOfEachKind(t *testing.T) {
	dir, _ := aHome(t)
	set, opened, err := openSet(filepath.Join(dir, databaseName))
	if err != nil {
		t.Fatal(err)
	}
	entries := []protocol.FileInfo{}
	for place, kind := range []protocol.FileInfoType{protocol.FileInfoTypeDirectory, protocol.FileInfoTypeSymlink, protocol.FileInfoTypeSymlink, protocol.FileInfoTypeFile, protocol.FileInfoTypeFile,
		protocol.FileInfoTypeFile} {
		entry := entryOfSequence(int64(place + 3))
		entry.Type, entry.Deleted = kind, place > 2
		if kind != protocol.FileInfoTypeFile || entry.Deleted {
			entry.Blocks, entry.Size = nil, 0
		}
		entries = append(entries, entry)
	}
	set.Update(protocol.LocalDeviceID, entries)
	opened.Close()
	index := firstIndex(t, dir)
	if count := index.names(); count != 8 { // with the files that are there before
		t.Errorf("%d names", count)
	}
	if bytes, err := index.Bytes(choice.Names{}); bytes != 2*8*protocol.MinBlockSize || err != nil {
		t.Errorf("%d bytes, %v", bytes, err)
	}
	slices := int64(0)
	for slice := 1; slice <= 3; slice++ { // of which each entry is read
		bytes, err := index.Bytes(choice.Names{Slice: slice, Slices: 3})
		if err != nil {
			t.Error(err)
		}
		slices += bytes
	}
	if slices != 2*8*protocol.MinBlockSize {
		t.Errorf("%d bytes in all slices", slices)
	}
}
