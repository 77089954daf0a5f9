package history

import (
	"errors"
	"fmt"
	"os"
	"path/filepath"
	"syscall"
	"testing"

	"github.com/syndtr/goleveldb/leveldb/storage"
)

// What is kept of one folder, device and name stands under another key for each kind of it.
func TestEachKindHasItsKeys(t *testing.T) {
	kinds := map[byte]bool{}
	keys := [][]byte{keyOfFormat(), keyOfLast(), keyOfReading("docs", 7, "a"), keyOfAsked("docs", 7, "a"), keyOfPart("docs", 7), keyOfChange("docs", "a", 7), keyOfTaken("docs", "a", 7),
		keyOfFault(Fault{"docs", "a", 7, "x"})}
	for _, key := range keys {
		kinds[key[0]] = true
	}
	if len(kinds) != len(keys) {
		t.Errorf("%d keys are of %d kinds", len(keys), len(kinds))
	}
}

// What programs before this one kept is found: each key is as they wrote it.
func TestKeysOfOlderPrograms(t *testing.T) {
	const device, number = 0x0102030405060708, "\x01\x02\x03\x04\x05\x06\x07\x08"
	for due, key := range map[string][]byte{"v": keyOfFormat(), "l": keyOfLast(), "rdocs\x00" + number: keyOfReadings("docs", device), "rdocs\x00" + number + "a": keyOfReading("docs", device, "a"),
		"adocs\x00" + number + "a": keyOfAsked("docs", device, "a"), "pdocs\x00" + number: keyOfPart("docs", device), "cdocs\x00a\x00" + number: keyOfChange("docs", "a", device),
		"tdocs\x00a\x00" + number: keyOfTaken("docs", "a", device), "fdocs\x00a\x00" + number + "x": keyOfFault(Fault{"docs", "a", device, "x"})} {
		if string(key) != due {
			t.Errorf("%q, not %q", key, due)
		}
	}
}

// A history that another process has open is busy, and no other one is.
func TestWhichHistoriesAreBusy(t *testing.T) {
	for err, is := range map[error]bool{syscall.EWOULDBLOCK: true, storage.ErrLocked: true, fmt.Errorf("x: %w", syscall.EAGAIN): true, fmt.Errorf("x: %w", storage.ErrLocked): true, os.ErrNotExist: false, nil: false} {
		if isBusy(err) != is {
			t.Errorf("%v: %v", err, !is)
		}
	}
}

// A fault that isn't found again, and whose value is none, makes the audit fail: it is neither mended nor lasting.
func TestAFaultThatCannotBeRead(t *testing.T) {
	history := opened(t)
	if err := history.db.Put(keyOfFault(named("a")[0]), []byte("short"), nil); err != nil {
		t.Fatal(err)
	}
	for _, found := range []string{"", "b"} {
		if news, err := history.Keep(night(1), named(found), func(Fault) bool { return true }); !errors.Is(err, errValue) || news.words() != (News{}).words() {
			t.Errorf("%+v, %v", news, err)
		}
	}
	if last, err := history.Last(); err != nil || !last.IsZero() {
		t.Errorf("the audit is kept: %v, %v", last, err)
	}
}

// A history is for its user alone.
func TestWhoMayReadAHistory(t *testing.T) {
	room := filepath.Join(t.TempDir(), "above", "history")
	defer syscall.Umask(syscall.Umask(0)) // which an earlier test may have left at what a history wants
	history, err := Open(room)
	if err != nil {
		t.Fatal(err)
	}
	defer history.Close()
	for _, path := range []string{room, filepath.Dir(room)} {
		if about, err := os.Stat(path); err != nil || about.Mode().Perm() != 0o700 {
			t.Errorf("%v, %v", about.Mode(), err)
		}
	}
}

// A key that is none of a name's is told as that.
func TestKeysOfNoName(t *testing.T) {
	if folder, name, device, _, err := readName(keyOfChange("docs", "a", 7)); err != nil || folder != "docs" || name != "a" || device != 7 {
		t.Errorf("%s, %s, %d, %v", folder, name, device, err)
	}
	for end := 1; end < len(keyOfChange("docs", "a", 7)); end++ {
		if _, _, _, _, err := readName(keyOfChange("docs", "a", 7)[:end]); err == nil {
			t.Errorf("%d bytes are read as a key", end)
		}
	}
	if fmt.Sprint(sorted(map[string][]uint64{"b": nil, "c": nil, "a": nil, "d": nil})) != "[a b c d]" {
		t.Error("folders aren't in their order")
	}
}
