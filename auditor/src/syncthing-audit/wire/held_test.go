package wire

import (
	"errors"
	"os"
	"path/filepath"
	"runtime"
	"strings"
	"syscall"
	"testing"
	"time"

	entries "syncthing-audit/device"
)

// Whatever is read of an index, nothing of it is held behind that.
func TestNothingOfAnIndexIsHeld(t *testing.T) {
	index := NewIndex(42)
	for called, call := range map[string]func() error{
		"take":  func() error { return take(index, file{name: "a", sequence: uint64(index.Highest) + 1}) },
		"each":  func() error { return index.Each(func(entries.Entry) error { return nil }) },
		"count": func() error { _, err := index.Count(); return err },
		"begin": func() error { return index.begin(43) },
	} {
		if err := call(); err != nil {
			t.Fatal(called, err)
		}
		if held, err := index.db.GetProperty("leveldb.aliveiters"); err != nil || held != "0" {
			t.Errorf("%s: %s are held, %v", called, held, err)
		}
	}
}

// An index that can't be opened is told with where it is and why, holds nothing, and may be tried again.
func TestAnIndexThatCannotBeOpened(t *testing.T) {
	directory := t.TempDir()
	index, err := OpenIndex(directory)
	if err == nil {
		err = index.db.Put(keyOfHead, []byte("short"), nil)
	}
	if err == nil {
		err = index.Close()
	}
	if err != nil {
		t.Fatal(err)
	}
	before := runtime.NumGoroutine()
	for tries := 0; tries < 3; tries++ {
		if _, err := OpenIndex(directory); !errors.Is(err, errNoIndex) || !strings.HasPrefix(err.Error(), "the index in "+directory+": ") {
			t.Errorf("%v", err)
		}
	}
	for tries := 0; runtime.NumGoroutine() > before; tries++ {
		if tries == 1000 {
			t.Fatalf("%d go on, and %d did before", runtime.NumGoroutine(), before)
		}
		time.Sleep(10 * time.Millisecond)
	}
	file := filepath.Join(directory, "file")
	if err := os.WriteFile(file, nil, 0o600); err != nil {
		t.Fatal(err)
	}
	below := filepath.Join(file, "index")
	if _, err := OpenIndex(below); !errors.Is(err, syscall.ENOTDIR) || !strings.HasPrefix(err.Error(), "the index in "+below+": ") {
		t.Errorf("%v", err)
	}
}

// An index whose files can't be closed isn't closed.
func TestAnIndexThatCannotBeClosed(t *testing.T) {
	index, err := OpenIndex(t.TempDir())
	if err != nil {
		t.Fatal(err)
	}
	if err := index.files.Close(); err != nil {
		t.Fatal(err)
	}
	if err := index.Close(); err == nil {
		t.Error("it is closed")
	}
}
