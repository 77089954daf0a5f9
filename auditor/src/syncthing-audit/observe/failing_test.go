package observe

import (
	"bytes"
	"context"
	"errors"
	"fmt"
	"os"
	"path/filepath"
	"runtime/debug"
	"strings"
	"testing"

	"github.com/syncthing/syncthing/lib/protocol"
	"syncthing-audit/fixture"
	"syncthing-audit/fixture/stranger"
	"syncthing-audit/wire"
)

// records gives those of two folders, of which one may be encrypted.
func records() map[string][]protocol.FileInfo {
	return map[string][]protocol.FileInfo{"docs": {stranger.Record("a", "text", 1), stranger.Record("b", "more", 2)}, "pics": {stranger.Record("p", "pic", 9)}}
}

// A first look that fails at any step tells in which folder it did, and leaves nothing of what it found.
func TestAFirstLookThatFails(t *testing.T) {
	damaged := errors.New("it can't be read")
	for why, row := range map[string]struct {
		state  func(*stranger.State)
		change func(t *testing.T, connection *wire.Connection, kept *Kept, room *string)
		err    error
	}{
		"an index that isn't whole":           {func(state *stranger.State) { state.Ahead = 5 }, func(_ *testing.T, connection *wire.Connection, _ *Kept, _ *string) { connection.Close() }, wire.Closed},
		"an encrypted index that isn't whole": {func(state *stranger.State) { state.Ahead, state.Sealed["docs"] = 5, true }, func(_ *testing.T, connection *wire.Connection, _ *Kept, _ *string) { connection.Close() }, wire.Closed},
		"no room":                             {nil, func(_ *testing.T, _ *wire.Connection, _ *Kept, room *string) { *room += "/none" }, os.ErrNotExist},
		"a last index that can't be read": {nil, func(t *testing.T, _ *wire.Connection, kept *Kept, _ *string) {
			kept.last.ID, kept.last.Highest = kept.next.ID, 9
			if err := kept.last.Close(); err != nil {
				t.Error(err)
			}
		}, damaged},
	} {
		met, room := meet(t, records(), nil), t.TempDir()
		kept := map[string]*Kept{}
		for _, id := range []string{"docs", "pics"} {
			var err error
			if kept[id], err = OpenKept(filepath.Join(t.TempDir(), id)); err != nil {
				t.Fatal(err)
			}
			t.Cleanup(kept[id].Close)
		}
		if row.state != nil {
			met.Change(row.state)
		}
		connection := met.dial(t, func(folder string) (*wire.Index, error) { return kept[folder].Next(), nil }, "docs", "pics")
		into, last := room, "pics"
		if row.state == nil { // all of it is had
			for _, folder := range connection.Folders {
				if _, err := folder.Index(context.Background()); err != nil {
					t.Fatal(err)
				}
			}
		} else {
			last = "docs"
		}
		if row.change(t, connection, kept["pics"], &into); into != room {
			last = "docs"
		}
		device, err := Begin(context.Background(), connection, func(folder string) *Kept { return kept[folder] }, into)
		if device != nil || err == nil || row.err != damaged && !errors.Is(err, row.err) || !strings.HasPrefix(err.Error(), fmt.Sprintf("folder %q: ", last)) {
			t.Errorf("%s: %v", why, err)
		}
		if left, err := os.ReadDir(room); err != nil || len(left) > 0 {
			t.Errorf("%s: %v is left, %v", why, left, err)
		}
	}
}

// An encrypted folder alone fails, too, where its index isn't whole.
func TestAnEncryptedFolderThatFails(t *testing.T) {
	met := meet(t, map[string][]protocol.FileInfo{"docs": {stranger.Record("a", "text", 1)}}, nil)
	met.Change(func(state *stranger.State) { state.Ahead, state.Sealed["docs"] = 1, true })
	connection := met.dial(t, nil, "docs")
	connection.Close()
	if device, err := Begin(context.Background(), connection, func(string) *Kept { return nil }, t.TempDir()); device != nil || !errors.Is(err, wire.Closed) || errors.Is(err, wire.EncryptedFolder) {
		t.Errorf("%v", err)
	}
}

// A second look whose index doesn't come as a whole fails, and the device stays as the first one saw it.
func TestASecondLookThatFails(t *testing.T) {
	met := meet(t, records(), nil)
	device, connection, _ := met.first(t, t.TempDir(), "docs", "pics")
	connection.Close()
	met.Change(func(state *stranger.State) { state.Ahead = 1 })
	room := t.TempDir()
	again := met.dial(t, func(folder string) (*wire.Index, error) { return device.Since(room, folder) }, "docs", "pics")
	again.Close()
	if err := device.End(context.Background(), again); !errors.Is(err, wire.Closed) || !strings.HasPrefix(err.Error(), `folder "docs": `) || len(device.Folders) != 2 {
		t.Errorf("%v, %d folders", err, len(device.Folders))
	}
}

// What can't be had of an index or a directory any more is told: where a part is written, and where a second look begins.
func TestWhatIsGoneByThen(t *testing.T) {
	device := folders(t, "docs")
	device.Folders[0].since = device.Folders[0].index
	if err := device.Write(&bytes.Buffer{}, Asked{}, protocol.DeviceID{5}, "look", []*Device{device}); err != nil {
		t.Fatal(err)
	}
	index, err := device.Since(t.TempDir(), "docs")
	if err != nil {
		t.Fatal(err)
	}
	index.Close()
	if err := os.RemoveAll(device.room); err != nil {
		t.Fatal(err)
	}
	if index, err := device.Since(t.TempDir(), "docs"); err == nil || index != nil {
		t.Errorf("%v", err)
	}
	device.Folders[0].index.Close()
	if err := device.Write(&bytes.Buffer{}, Asked{}, protocol.DeviceID{5}, "look", []*Device{device}); err == nil {
		t.Error("a part of an index that is closed is written")
	}
}

// What is kept can't be opened where its directory doesn't let this user, at whichever step; then nothing of it stays open.
func TestAKeptIndexThatMayNotBeOpened(t *testing.T) {
	defer debug.SetGCPercent(debug.SetGCPercent(-1)) // the collector closes files of which nobody knows any more
	for why, prepare := range map[string]func(directory string) error{
		"no directory":      func(directory string) error { return os.Chmod(filepath.Dir(directory), 0o755) },
		"no lock":           func(directory string) error { return os.MkdirAll(filepath.Join(directory, nameOfLock), 0o777) },
		"an older one":      func(directory string) error { return closedTo(directory, nameOfOlder, 0o755) },
		"what was begun":    func(directory string) error { return closedTo(directory, nameOfNext+"/full", 0o777) },
		"what was replaced": func(directory string) error { return closedTo(directory, nameOfOlder+"/full", 0o777, nameOfLast) },
		"the last one":      func(directory string) error { return closedTo(directory, nameOfLast, 0o777) },
	} {
		directory := filepath.Join(fixture.OpenDirectory(t), "kept")
		if err := prepare(directory); err != nil {
			t.Fatal(err)
		}
		isHere := func(path string) bool { return strings.HasPrefix(path, directory) }
		fixture.AsAnother(t, func() {
			before := fixture.CountOpened(t, isHere)
			kept, err := OpenKept(directory)
			if err == nil || kept != nil || errors.Is(err, ErrBusy) || strings.Contains(err.Error(), ": the index in ") != (why == "the last one") {
				t.Errorf("%s: %v", why, err)
			}
			if after := fixture.CountOpened(t, isHere); after != before {
				t.Errorf("%s: %d files are open, and %d before", why, after, before)
			}
		})
	}
}

// closedTo makes a directory of root alone, and others, below one that has a mode.
func closedTo(directory, name string, mode os.FileMode, others ...string) error {
	for _, path := range append([]string{name}, others...) {
		if err := os.MkdirAll(filepath.Join(directory, path), 0o700); err != nil {
			return err
		}
	}
	if err := os.WriteFile(filepath.Join(directory, nameOfLock), nil, 0o600); err != nil {
		return err
	}
	for _, path := range []string{directory, filepath.Join(directory, nameOfLock)} {
		if err := os.Chmod(path, mode); err != nil {
			return err
		}
	}
	return nil
}

// What was taken is put in place of the last index, or that stays: at whichever step it fails.
func TestAKeptIndexThatCannotBePut(t *testing.T) {
	for why, spoil := range map[string]func(*Kept) error{
		"nothing was taken":      func(kept *Kept) error { return os.RemoveAll(kept.path(nameOfNext)) },
		"it is closed":           func(kept *Kept) error { return kept.next.Close() },
		"the last one is closed": func(kept *Kept) error { return kept.last.Close() },
		"the last one is gone":   func(kept *Kept) error { return os.RemoveAll(kept.path(nameOfLast)) },
	} {
		directory := filepath.Join(t.TempDir(), "kept")
		run(t, directory, fileOf("a", 1, true))
		kept, err := OpenKept(directory)
		if err == nil {
			err = spoil(kept)
		}
		if err != nil {
			t.Fatal(err)
		}
		if err := kept.Finish(); err == nil {
			t.Errorf("%s: it is put", why)
		}
		again, err := OpenKept(directory)
		if err != nil {
			t.Fatal(why, err)
		}
		if is := again.last.Highest == 1; is != (why != "the last one is gone") {
			t.Errorf("%s: the last one goes up to %d", why, again.last.Highest)
		}
		again.Close()
	}
}
