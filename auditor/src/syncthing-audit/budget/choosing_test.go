package budget

import (
	"context"
	"testing"

	"github.com/syndtr/goleveldb/leveldb"
	"github.com/syndtr/goleveldb/leveldb/storage"
	"syncthing-audit/device"
	"syncthing-audit/part"
)

// Bytes are those of a file that is there and isn't empty.
func TestWhatHasBytes(t *testing.T) {
	file := func(size int64) *part.Record { return &part.Record{Content: &part.Content{Size: size}} }
	deleted := file(1)
	deleted.Deleted = true
	for why, row := range map[string]struct {
		record *part.Record
		is     bool
	}{"none": {nil, false}, "a directory": {&part.Record{}, false}, "an empty file": {file(0), false}, "a file": {file(1), true}, "one that is gone": {deleted, false}} {
		if is := HasBytes(device.Entry{Record: row.record}); is != row.is {
			t.Errorf("%s: %v", why, is)
		}
	}
}

// What was chosen and can't be kept is no plan.
func TestAChoiceThatCannotBeKept(t *testing.T) {
	c := newCluster(t, 1)
	c.record("a", 100, 0)
	chosen, err := leveldb.Open(storage.NewMemStorage(), nil)
	if err != nil {
		t.Fatal(err)
	}
	plan, asks := &Plan{places: []Place{{Folder: "docs", Index: c.indexes[0]}}, history: c.history, chosen: chosen}, 0
	isFault := func(string, string) bool {
		if asks++; asks == 2 { // once it is counted what waits how long
			chosen.Close()
		}
		return false
	}
	if err := plan.choose(context.Background(), Asked{Bytes: 1000, IsFault: isFault}); err == nil || asks != 2 {
		t.Errorf("%v, asked %d times", err, asks)
	}
}

// No two names of folders have one key, whatever letters they have: neither an id nor a name has a zero byte.
func TestKeysOfNames(t *testing.T) {
	texts, found := []string{"a", "b", "c", "ab", "bc", "\x01", "a\x01", "\x01a", "a\x01b", "b\x01c", "\x01\x01", "a b", "b c", " ", "a/b", "b/c", "\xff", "a\xff", "\xffb"}, map[string]string{}
	for _, folder := range texts {
		for _, name := range texts {
			key := string(keyOf(folder, name))
			if had, is := found[key]; is {
				t.Errorf("%q and %q of %q have the key %q", had, name, folder, key)
			}
			found[key] = name
		}
	}
}
