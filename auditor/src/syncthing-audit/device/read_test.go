package device

import (
	"fmt"
	"reflect"
	"testing"

	"github.com/syncthing/syncthing/lib/config"
	"github.com/syncthing/syncthing/lib/db"
	"github.com/syncthing/syncthing/lib/db/backend"
	"github.com/syncthing/syncthing/lib/events"
	"github.com/syncthing/syncthing/lib/protocol"
	"syncthing-audit/choice"
	"syncthing-audit/part"
)

// indexInMemory gives a folder's index with its own entries, and those of another device; a third one is shared with, and unheard of.
func indexInMemory(t *testing.T, isLive bool, own, others []protocol.FileInfo) *Index {
	memory := backend.OpenMemory()
	t.Cleanup(func() { memory.Close() })
	index, err := db.NewLowlevel(memory, events.NoopLogger)
	if err != nil {
		t.Fatal(err)
	}
	files, err := db.NewFileSet("docs", index)
	if err != nil {
		t.Fatal(err)
	}
	files.SetIndexID(otherDevice, 7)
	files.Update(protocol.LocalDeviceID, own)
	files.Update(otherDevice, others)
	snapshot, err := files.Snapshot()
	if err != nil {
		t.Fatal(err)
	}
	t.Cleanup(snapshot.Release)
	about := config.FolderConfiguration{ID: "docs", Path: t.TempDir(), Devices: []config.FolderDeviceConfiguration{{DeviceID: protocol.DeviceID{9}}, {DeviceID: otherDevice},
		{DeviceID: protocol.DeviceID{3}}}}
	return &Index{home: &Home{ID: protocol.DeviceID{9}, isLive: isLive, backend: memory}, Config: about, files: files, snapshot: snapshot}
}

// toldEntries gives the names that a reading gives, with why one is left out.
func toldEntries(t *testing.T, read func(take func(Entry) bool) error, most int) []string {
	told := []string{}
	err := read(func(entry Entry) bool {
		why := ""
		if entry.Out != nil {
			why = " " + entry.Out.Kind + " (" + entry.Out.Why + ")"
		}
		told = append(told, entry.Name+why)
		return len(told) < most
	})
	if err != nil {
		t.Fatal(err)
	}
	return told
}

// The entries of an index are read rising by name, those that are asked for, until nobody takes more. One whose sequence is above the greatest one
// is left out: of a running device as one that changes.
func TestEntriesOfAnIndex(t *testing.T) {
	file := func(name string, sequence int64) protocol.FileInfo {
		return hello(func(one *protocol.FileInfo) { one.Name, one.Sequence = name, sequence })
	}
	own := []protocol.FileInfo{file("b", 0), file("a", 0), file("c", 0)}
	own[2].Type, own[2].Size, own[2].RawBlockSize, own[2].Blocks = protocol.FileInfoTypeDirectory, 0, 0, nil
	others := []protocol.FileInfo{file("b", 5), file("a", 3), file("z", 4)}
	for _, isLive := range []bool{false, true} {
		index := indexInMemory(t, isLive, own, others)
		kind := map[bool]string{false: part.OddRecord, true: part.Changing}[isLive]
		for _, row := range []struct {
			names         choice.Names
			most          int
			greatest      int64
			own, expected string
		}{
			{choice.Names{}, 9, 5, "[a b c]", "[a b z]"}, {choice.Names{}, 9, 4, "[a b c]", "[a b " + kind + " (its sequence 5 isn't 1 to 4) z]"}, {choice.Names{Prefix: "b"}, 9, 5, "[b]", "[b]"},
			{choice.Names{Prefix: "x"}, 9, 5, "[]", "[]"}, {choice.Names{}, 1, 5, "[a]", "[a]"},
		} {
			told := toldEntries(t, func(take func(Entry) bool) error { return index.Own(row.names, take) }, row.most)
			view := part.View{Device: otherDevice.String(), Max: row.greatest}
			seen := toldEntries(t, func(take func(Entry) bool) error { return index.View(view, row.names, take) }, row.most)
			if fmt.Sprint(told) != row.own || fmt.Sprint(seen) != row.expected {
				t.Errorf("%+v: %v and %v", row, told, seen)
			}
		}
		if err := index.View(part.View{Device: "x"}, choice.Names{}, func(Entry) bool { return true }); err == nil {
			t.Error("a view of no device is read")
		}
		folder := index.Folder()
		if !reflect.DeepEqual(folder.Views, []part.View{{Device: otherDevice.String(), IndexID: 7, Max: 5}}) || folder.Max != 3 || folder.Indexed != 3 {
			t.Errorf("%+v", folder)
		}
	}
}

// What another device ignores, or is to scan anew, has neither size nor blocks; all else is its record.
func TestWhatAnotherDeviceIgnores(t *testing.T) {
	for why, row := range map[string]struct {
		change func(*protocol.FileInfo)
		isOut  bool
	}{
		"a file":                         {func(*protocol.FileInfo) {}, false},
		"an invalid one with its blocks": {func(f *protocol.FileInfo) { f.RawInvalid = true }, false},
		"an invalid one without blocks":  {func(f *protocol.FileInfo) { f.RawInvalid, f.Blocks, f.Size = true, nil, 0 }, true},
		"what is ignored":                {func(f *protocol.FileInfo) { f.LocalFlags, f.Blocks, f.Size = protocol.FlagLocalIgnored, nil, 0 }, true},
		"what is deleted":                {func(f *protocol.FileInfo) { f.RawInvalid, f.Deleted, f.Blocks, f.Size = true, true, nil, 0 }, false},
		"a directory that is invalid": {func(f *protocol.FileInfo) {
			f.RawInvalid, f.Type, f.Blocks, f.Size = true, protocol.FileInfoTypeDirectory, nil, 0
		}, false},
	} {
		viewed := hello(row.change)
		entry := viewedEntry(&viewed)
		if (entry.Out != nil) != row.isOut || entry.Out != nil && entry.Out.Kind != part.Ignored || (entry.Record == nil) != row.isOut {
			t.Errorf("%s: %+v, %+v", why, entry.Record, entry.Out)
		}
	}
}
