package wire

import (
	"context"
	"math/rand"
	"sort"
	"strings"
	"testing"
	"time"

	"github.com/syncthing/syncthing/lib/protocol"
	entries "syncthing-audit/device"
	"syncthing-audit/part"
	"syncthing-audit/request"
)

// look has a fake device with these records and this disk looked at, and gives what is found.
func look(t *testing.T, recorded map[string]string, change func(*fake)) (map[string]Found, *fake) {
	t.Helper()
	observer := newObserver(t)
	device := newFake(t, nil)
	device.recorded, device.disk, device.ignored = recorded, map[string]string{}, map[string]bool{}
	names := []string{}
	for name, data := range recorded {
		device.disk[name] = data
		names = append(names, name)
	}
	sort.Strings(names)
	change(device)
	device.script = func(f *fake) {
		f.hello()
		files := []file{}
		for place, name := range names {
			files = append(files, file{name: name, data: recorded[name], sequence: uint64(place + 1), deleted: strings.HasPrefix(name, "deleted"),
				directory: strings.HasPrefix(name, "directory")})
		}
		f.write(kindClusterConfig, f.config("docs", observer.ID, 42, uint64(len(names))), false)
		readFrame(f.stream, 1<<20, func() {})
		f.write(kindIndex, indexOf("docs", files...), false)
		f.serve()
	}
	limits := short()
	limits.Message = 16 << 20
	connection, err := dial(observer, device, nil, limits)
	if err != nil {
		t.Fatal(err)
	}
	defer func() { connection.Close(); <-device.over }()
	index, err := connection.Folders[0].Index(context.Background())
	if err != nil {
		t.Fatal(err)
	}
	found, last := map[string]Found{}, ""
	err = connection.Folders[0].Bytes(context.Background(), index, all, func(entry entries.Entry, content Found) error {
		name := entry.Name
		if name <= last {
			t.Errorf("%s behind %s", name, last)
		}
		found[name], last = content, name
		return nil
	})
	if err != nil {
		t.Fatal(err)
	}
	if len(found) != len(recorded) {
		t.Errorf("%d names in place of %d", len(found), len(recorded))
	}
	return found, device
}

const block = protocol.MinBlockSize

// all is of each name.
func all(entries.Entry) (bool, error) { return true, nil }

// Each fault is found, with the length that the file has; and no request had a recorded hash where other bytes stand.
func TestFaults(t *testing.T) {
	large := strings.Repeat("large", 100000) // four blocks
	recorded := map[string]string{"same": large, "one": "1", "one grown": "1", "empty": "", "empty grown": "", "rot": large, "rot of one": "1", "missing": large,
		"missing empty": "", "ignored": large, "truncated": large, "cut at a block": large, "grown": large, "grown much": "text", "emptied": large,
		"deleted": "", "deleted and there": "", "directory": "", "directory that is a file": ""}
	found, device := look(t, recorded, func(f *fake) {
		f.disk["one grown"] = "11"
		f.disk["empty grown"] = "x"
		f.disk["rot"] = large[:200000] + "X" + large[200001:]
		f.disk["rot of one"] = "2"
		delete(f.disk, "missing")
		delete(f.disk, "missing empty")
		delete(f.disk, "deleted")
		f.ignored["ignored"] = true
		f.disk["truncated"] = large[:300000]
		f.disk["cut at a block"] = large[:2*block]
		f.disk["grown"] = large + "x"
		f.disk["grown much"] = "text" + large
		f.disk["emptied"] = ""
		f.disk["deleted and there"], f.disk["directory that is a file"] = "x", "x"
		delete(f.disk, "directory")
	})
	want := map[string]struct {
		state  State
		size   int64
		differ []int
	}{
		"same": {Same, 500000, nil}, "one": {Same, 1, nil}, "one grown": {Differs, 2, []int{0}}, "empty": {Same, 0, nil}, "empty grown": {Differs, 1, []int{0}},
		"rot": {Differs, 500000, []int{1}}, "rot of one": {Differs, 1, []int{0}}, "missing": {Missing, 0, nil}, "missing empty": {Missing, 0, nil},
		"ignored": {Ignored, 0, nil}, "truncated": {Differs, 300000, []int{2, 3}}, "cut at a block": {Differs, 2 * block, []int{2, 3}},
		"grown": {Differs, 500001, []int{3}}, "grown much": {Differs, 500004, []int{0, 1, 2, 3}}, "emptied": {Differs, 0, []int{0, 1, 2, 3}},
		"deleted": {Missing, 0, nil}, "deleted and there": {Present, 1, nil}, "directory": {Missing, 0, nil}, "directory that is a file": {Present, 1, nil},
	}
	for name, row := range want {
		got := found[name]
		if got.State != row.state || got.Size != row.size || !equal(blocksIn(got.Differ), row.differ) {
			t.Errorf("%s: %s, %d bytes, blocks %v differ, in place of %v", name, got.State, got.Size, got.Differ, row)
		}
	}
	if len(device.rescans) > 0 {
		t.Errorf("a device would scan %v", device.rescans)
	}
	for _, kind := range device.heard {
		if kind != kindRequest && kind != kindClose {
			t.Errorf("the observer sent a message of kind %d", kind)
		}
	}
}

// blocksIn gives the blocks that differ, one by one.
func blocksIn(differ *part.Differ) []int {
	var numbers []int
	if differ != nil {
		for _, pair := range differ.Ranges {
			for block := pair[0]; block <= pair[1]; block++ {
				numbers = append(numbers, int(block))
			}
		}
	}
	return numbers
}

func equal(a, b []int) bool {
	if len(a) != len(b) {
		return false
	}
	for place := range a {
		if a[place] != b[place] {
			return false
		}
	}
	return true
}

// Random lengths of records and files: the length is found, and what differs.
func TestRandomLengths(t *testing.T) {
	recorded, disk := map[string]string{}, map[string]string{}
	for n := 0; n < 300; n++ {
		name := string(rune('a'+n%26)) + strings.Repeat("x", n)
		data := strings.Repeat("y", rand.Intn([]int{3, 1000, 3 * block}[n%3]))
		recorded[name], disk[name] = data, data
		if n%2 == 0 {
			disk[name] = strings.Repeat("y", rand.Intn([]int{3, 1000, 3 * block}[n/2%3]))
		}
	}
	found, device := look(t, recorded, func(f *fake) { f.disk = disk })
	for name, content := range found {
		state := Differs
		if disk[name] == recorded[name] {
			state = Same
		}
		if content.State != state || content.Size != int64(len(disk[name])) {
			t.Errorf("%d bytes recorded, %d on the disk: %s, %d", len(recorded[name]), len(disk[name]), content.State, content.Size)
		}
	}
	if len(device.rescans) > 0 {
		t.Errorf("a device would scan %v", device.rescans)
	}
}

// A device that knows no weak hashes tells no lengths. Bytes without a length say nothing: a truncated file's are made up.
func TestNoLengths(t *testing.T) {
	found, device := look(t, map[string]string{"a": "text", "b": "", "c": "gone"}, func(f *fake) {
		f.noWeak = true
		f.disk["a"] = "te"
		delete(f.disk, "c")
	})
	if found["a"].State != NotKnown || found["b"].State != NotKnown || found["c"].State != Missing {
		t.Errorf("%v", found)
	}
	if len(device.rescans) > 0 {
		t.Errorf("a device would scan %v", device.rescans)
	}
}

// A file that changes between its bytes and its length isn't known.
func TestChangesMeanwhile(t *testing.T) {
	found, _ := look(t, map[string]string{"a": "text"}, func(f *fake) {
		f.after = func(request int) {
			if request == 4 { // two for the length, one for the bytes, and the first of the second length
				f.disk["a"] = "text and more"
			}
		}
	})
	if found["a"].State != NotKnown {
		t.Errorf("%v", found["a"])
	}
}

// Requests wait while others fill the room, by their count or their bytes; one that is too large for it goes alone.
func TestRoom(t *testing.T) {
	const large = 16 << 20
	for why, row := range map[string]struct {
		first []int32 // these enter
		next  int32   // this one waits, until the first one leaves
	}{
		"many": {make([]int32, 64), 0}, "four large ones": {[]int32{large, large, large, large}, 1}, "a very large one": {[]int32{100 << 20}, 1}, "large ones": {[]int32{large, large, large, large - 1}, 2},
	} {
		room := newRoom()
		for _, size := range row.first {
			room.enter(request.ForBlock("a", 0, size))
		}
		entered := make(chan bool, 1)
		go func() { room.enter(request.ForBlock("b", 0, row.next)); entered <- true }()
		select {
		case <-entered:
			t.Errorf("%s: one more entered", why)
			continue
		case <-time.After(20 * time.Millisecond):
		}
		room.leave(request.ForBlock("a", 0, row.first[0]))
		<-entered
		bytes := int64(row.next)
		for _, size := range row.first[1:] {
			bytes += int64(size)
		}
		room.mutex.Lock()
		if room.requests != len(row.first) || room.bytes != bytes {
			t.Errorf("%s: %d requests of %d bytes, not %d", why, room.requests, room.bytes, bytes)
		}
		room.mutex.Unlock()
	}
}
