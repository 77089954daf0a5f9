package device

import (
	"encoding/json"
	"fmt"
	"testing"

	"github.com/syncthing/syncthing/lib/protocol"
	"google.golang.org/protobuf/encoding/protowire"
	"syncthing-audit/adapt"
	"syncthing-audit/choice"
	"syncthing-audit/message"
)

// entriesOfEachKind are what an index may have: files of no, one, some and many blocks, the last in a list of their own, what is no file, and what is
// deleted, invalid, ignored and changed, by one device and by many.
func entriesOfEachKind() []protocol.FileInfo {
	made := []protocol.FileInfo{}
	add := func(change func(*protocol.FileInfo)) {
		made = append(made, hello(func(entry *protocol.FileInfo) {
			entry.Name = fmt.Sprintf("directory/%02d", len(made))
			entry.BlocksHash = []byte(entry.Name)
			change(entry)
		}))
	}
	for _, blocks := range []int64{1, 2, 3, 4, 40} {
		add(func(entry *protocol.FileInfo) {
			entry.Size, entry.Blocks = blocks*protocol.MinBlockSize-7, nil
			for at := int64(0); at < blocks; at++ {
				entry.Blocks = append(entry.Blocks, protocol.BlockInfo{Offset: at * protocol.MinBlockSize, Size: protocol.MinBlockSize, Hash: make([]byte, 32)})
				entry.Blocks[at].Hash[0] = byte(at)
			}
			entry.Blocks[blocks-1].Size -= 7
		})
	}
	add(func(entry *protocol.FileInfo) { entry.Permissions, entry.ModifiedNs = 0o644, 999999999 })
	add(func(entry *protocol.FileInfo) { entry.NoPermissions, entry.ModifiedS = true, 1<<40 })
	add(func(entry *protocol.FileInfo) { entry.Deleted, entry.Size, entry.Blocks = true, 0, nil })
	add(func(entry *protocol.FileInfo) { entry.RawInvalid, entry.Size, entry.Blocks = true, 0, nil })
	for _, flags := range []uint32{protocol.FlagLocalIgnored, protocol.FlagLocalUnsupported, protocol.FlagLocalMustRescan, protocol.FlagLocalReceiveOnly, 1 << 20} {
		add(func(entry *protocol.FileInfo) { entry.LocalFlags = flags })
	}
	add(func(entry *protocol.FileInfo) { entry.Encrypted = []byte("sealed") })
	add(func(entry *protocol.FileInfo) {
		entry.Type, entry.Size, entry.Blocks, entry.BlocksHash = protocol.FileInfoTypeDirectory, 0, nil, nil
	})
	add(func(entry *protocol.FileInfo) {
		entry.Type, entry.Size, entry.Blocks, entry.BlocksHash = protocol.FileInfoTypeSymlink, 0, nil, nil
		adapt.SetText(&entry.SymlinkTarget, "target")
	})
	made[0].Version = ofDevices(9)
	return made
}

// ofManyDevices is an entry whose version stands elsewhere.
func ofManyDevices() protocol.FileInfo {
	return hello(func(entry *protocol.FileInfo) {
		entry.Name, entry.Version = "directory/05x", ofDevices(15)
	})
}

// ofDevices gives a version of as many devices.
func ofDevices(count uint64) (version protocol.Vector) {
	for device := uint64(1); device <= count; device++ {
		version.Counters = append(version.Counters, protocol.Counter{ID: protocol.ShortID(device), Value: 300 * device})
	}
	return version
}

// readBy gives all that a reading gives, and its error.
func readBy(read func(give func(*protocol.FileInfo) bool) error) (entries []Entry, told string) {
	err := read(func(entry *protocol.FileInfo) bool {
		entries = append(entries, ownEntry(entry))
		return true
	})
	return entries, fmt.Sprint(err)
}

// bothReadings gives what an index has of a device, as it is read, and as Syncthing's own package alone reads it.
func bothReadings(t *testing.T, index *Index, of protocol.DeviceID, names choice.Names) (are, due string) {
	snapshot, err := index.files.Snapshot()
	if err != nil {
		t.Fatal(err)
	}
	defer snapshot.Release()
	index.snapshot = snapshot
	told := func(entries []Entry, err string) string {
		text, failed := json.Marshal(entries)
		if failed != nil {
			t.Fatal(failed)
		}
		return err + " " + string(text)
	}
	are = told(readBy(func(give func(*protocol.FileInfo) bool) (err error) {
		return index.entries(of, names, 1<<30, func(entry *protocol.FileInfo) Entry { give(entry); return Entry{} }, func(Entry) bool { return true })
	}))
	due = told(readBy(func(give func(*protocol.FileInfo) bool) (err error) {
		defer recovered("docs", &err)
		return index.otherEntries(of, names, 0, give)
	}))
	return are, due
}

// Plain entries are read as Syncthing's own package reads them, and are all that it writes but for one of many counters. What is behind that one is read, too.
func TestPlainEntries(t *testing.T) {
	each := entriesOfEachKind()
	for place, others := range [][]protocol.FileInfo{each, append(entriesOfEachKind(), ofManyDevices())} {
		index := indexInMemory(t, false, entriesOfEachKind(), others)
		for _, names := range []choice.Names{{}, {Prefix: "directory/0"}, {Slice: 2, Slices: 3}, {Prefix: "none"}} {
			for _, of := range []protocol.DeviceID{protocol.LocalDeviceID, otherDevice, {3}} {
				if are, due := bothReadings(t, index, of, names); are != due {
					t.Errorf("%+v: %s\nnot\n%s", names, are, due)
				}
			}
		}
		given, isOver, err := index.plainEntries(otherDevice, choice.Names{}, func(*protocol.FileInfo) bool { return true })
		if due := []int64{int64(len(each)), 6}[place]; given != due || isOver != (place == 0) || err != nil {
			t.Errorf("%d of %d are plain, %v, %v", given, len(others), isOver, err)
		}
	}
}

// Each field that newer versions write is read as Syncthing's own package reads it; here one is plain where nothing stands in it, or nothing is told of it.
func TestFieldsOfNewerVersions(t *testing.T) {
	block := message.AppendText(message.AppendNumber(nil, message.BlockSize, 5), message.BlockHash, make([]byte, 32))
	for why, row := range map[string]struct {
		field   []byte
		isPlain bool
	}{
		"nothing of a platform": {protowire.AppendBytes(protowire.AppendTag(nil, 14, protowire.BytesType), nil), true},
		"an owner":              {message.AppendText(nil, 14, message.AppendText(nil, 1, message.AppendText(nil, 1, []byte("owner")))), false},
		"an inode's change":     {message.AppendNumber(nil, 1002, 5), true},
		"a trailer's length":    {message.AppendNumber(nil, 1003, 5), false},
		"what isn't known":      {message.AppendNumber(nil, 2000, 5), false},
		"a number of 0":         {protowire.AppendVarint(protowire.AppendTag(nil, message.FileSize, protowire.VarintType), 0), false},
		"a weak hash":           {message.AppendText(nil, message.FileBlock, message.AppendNumber(block, message.BlockWeak, 7)), true},
	} {
		index := indexInMemory(t, false, []protocol.FileInfo{hello(func(*protocol.FileInfo) {})}, nil)
		prefix, err := index.prefixOf(protocol.LocalDeviceID)
		if err != nil {
			t.Fatal(err)
		}
		key := []byte(prefix + "hello")
		value, err := index.home.backend.Get(key)
		if err == nil {
			err = index.home.backend.Put(key, append(append([]byte(nil), value...), row.field...))
		}
		if err != nil {
			t.Fatal(err)
		}
		if are, due := bothReadings(t, index, protocol.LocalDeviceID, choice.Names{}); are != due {
			t.Errorf("%s: %s\nnot\n%s", why, are, due)
		}
		if given, _, err := index.plainEntries(protocol.LocalDeviceID, choice.Names{}, func(*protocol.FileInfo) bool { return true }); (given == 1) != row.isPlain || err != nil {
			t.Errorf("%s: %d are plain, %v", why, given, err)
		}
	}
}

// An entry that is damaged in any bit, or cut anywhere, is read as Syncthing's own package reads it, or refused as by that. So is a list of blocks.
func TestDamagedEntries(t *testing.T) {
	each, some := entriesOfEachKind(), []protocol.FileInfo{}
	for _, place := range []int{1, 3, 7, 9, 16} { // that differ in their fields
		some = append(some, each[place])
	}
	index := indexInMemory(t, false, some, nil)
	whole := map[string][]byte{}
	all, err := index.home.backend.NewPrefixIterator(nil)
	if err != nil {
		t.Fatal(err)
	}
	prefix, err := index.prefixOf(protocol.LocalDeviceID)
	if err != nil {
		t.Fatal(err)
	}
	for all.Next() {
		if key := string(all.Key()); key[0] == 13 || len(key) > len(prefix) && key[:len(prefix)] == prefix {
			whole[key] = append([]byte(nil), all.Value()...)
		}
	}
	all.Release()
	if len(whole) != len(some)+1 {
		t.Fatalf("%d entries and lists", len(whole))
	}
	seen := map[bool]int{}
	try := func(key string, value []byte) {
		names := choice.Names{}
		if len(key) > len(prefix) && key[:len(prefix)] == prefix {
			names.Prefix = key[len(prefix):]
		}
		if err := index.home.backend.Put([]byte(key), value); err != nil {
			t.Fatal(err)
		}
		are, due := bothReadings(t, index, protocol.LocalDeviceID, names)
		if seen[due[:5] == "<nil>"]++; are != due {
			t.Fatalf("%x: %s\nnot\n%s", value, are, due)
		}
	}
	for key, value := range whole {
		for at := 0; at < len(value) && at < 120; at++ {
			try(key, value[:at])
			for bit := 0; bit < 8; bit++ {
				flipped := append([]byte(nil), value...)
				flipped[at] ^= 1 << bit
				try(key, flipped)
			}
		}
		try(key, value)
	}
	if seen[false] == 0 || seen[true] == 0 {
		t.Errorf("%v", seen)
	}
}
