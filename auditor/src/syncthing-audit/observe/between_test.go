package observe

import (
	"context"
	"errors"
	"fmt"
	"os"
	"path/filepath"
	"reflect"
	"runtime"
	"strings"
	"testing"

	"github.com/syncthing/syncthing/lib/protocol"
	"syncthing-audit/budget"
	"syncthing-audit/choice"
	entries "syncthing-audit/device"
	"syncthing-audit/history"
	"syncthing-audit/message"
	"syncthing-audit/part"
	"syncthing-audit/shell"
	"syncthing-audit/wire"
)

// deleted is the field of a record that says its name is gone.
var deleted = message.AppendNumber(nil, 6, 1)

// folders gives a device with these folders, each of which has three files of three bytes, one of them deleted.
func folders(t *testing.T, ids ...string) *Device {
	device := &Device{ID: protocol.DeviceID{0: 1, 7: 1}, Out: map[string]error{}}
	for _, id := range ids {
		device.Folders = append(device.Folders, seenIn(t, id, map[string][]byte{"a": fileOf("a", 1, true), "b": fileOf("b", 2, true), "c": fileOf("c", 3, true, deleted...)}))
	}
	return device
}

// How many bytes will be asked for is the sum of what is recorded of the names that are asked for, of all folders; none where records alone are.
func TestHowManyBytesAreWanted(t *testing.T) {
	device := folders(t, "docs", "pics")
	for _, row := range []struct {
		asked Asked
		bytes int64
	}{
		{Asked{}, 12}, {Asked{Records: true}, 0}, {Asked{Names: choice.Names{Prefix: "b"}}, 6}, {Asked{Names: choice.Names{Prefix: "c"}}, 0}, {Asked{Names: choice.Names{Prefix: "none"}}, 0},
	} {
		if bytes, err := device.Wanted(row.asked); err != nil || bytes != row.bytes {
			t.Errorf("%+v: %d bytes, not %d: %v", row.asked, bytes, row.bytes, err)
		}
	}
	if names := device.Folders[0].names; names != 3 {
		t.Errorf("%d names", names)
	}
	device.Folders[1].index.Close()
	if bytes, err := device.Wanted(Asked{}); err == nil || bytes != 0 || !strings.HasPrefix(err.Error(), `folder "pics": `) {
		t.Errorf("%d, %v", bytes, err)
	}
	read := int64(0)
	if err := device.Read(context.Background(), &wire.Connection{}, Asked{Records: true}, func(bytes int64) { read += bytes }); err != nil || read != 0 || device.first.IsZero() {
		t.Errorf("%d bytes are read: %v", read, err)
	}
}

// A folder is found by its id, and no other is.
func TestFoldersByTheirIDs(t *testing.T) {
	device := folders(t, "b", "d")
	for _, id := range []string{"a", "b", "c", "d", "e", ""} {
		if found := device.Folder(id); (found != nil) != (id == "b" || id == "d") || found != nil && found.ID() != id {
			t.Errorf("%q: %v", id, found)
		}
	}
}

// For the second look each folder has an index that has what the first look's had, in a directory that goes with the device. Of a folder that wasn't
// looked at first nothing is had.
func TestTheIndexesOfTheSecondLook(t *testing.T) {
	device, room := folders(t, "docs", "pics"), t.TempDir()
	directories := map[string]bool{}
	for _, id := range []string{"docs", "pics", "new"} {
		index, err := device.Since(room, id)
		if err != nil {
			t.Fatal(err)
		}
		if is := index.ID == 7 && index.Highest == 3; is != (id != "new") || !is && (index.ID != 0 || index.Highest != 0) {
			t.Errorf("%s: %d, %d", id, index.ID, index.Highest)
		}
		if count, err := index.Count(); err != nil || count != 0 {
			t.Errorf("%s: %d names, %v", id, count, err)
		}
		directories[device.room] = true
		index.Close()
	}
	if entries, err := os.ReadDir(device.room); err != nil || len(entries) != 3 || len(directories) != 1 || !strings.HasPrefix(device.room, room) {
		t.Errorf("%v, %v", entries, err)
	}
	device.Close()
	if entries, err := os.ReadDir(room); err != nil || len(entries) != 0 {
		t.Errorf("%v is left: %v", entries, err)
	}
	if index, err := folders(t, "docs").Since(room+"/nowhere", "docs"); err == nil || index != nil {
		t.Errorf("%v", index)
	}
	(&Device{}).Close() // nothing was found
}

// A folder that isn't shared any more at the second look is out, with why, and so is the whole device once none is left. Another device's second look is none.
func TestWhatIsOutAtTheSecondLook(t *testing.T) {
	why := errors.New("it is paused there")
	device := folders(t, "docs", "pics")
	again := &wire.Connection{Device: device.ID, Out: map[string]error{"pics": why}}
	if err := device.End(context.Background(), again); !errors.Is(err, wire.NotShared) || len(device.Folders) != 0 || device.again.IsZero() {
		t.Errorf("%v: %d folders", err, len(device.Folders))
	}
	if out := device.Out["pics"]; !errors.Is(out, why) || !strings.HasPrefix(out.Error(), "at the second look: ") || !errors.Is(device.Out["docs"], wire.NotShared) {
		t.Errorf("%v", device.Out)
	}
	other := folders(t, "docs")
	if err := other.End(context.Background(), &wire.Connection{Device: protocol.DeviceID{9}}); err == nil || !strings.HasPrefix(err.Error(), "another device, ") || len(other.Folders) != 1 {
		t.Errorf("%v", err)
	}
}

// Where nothing is seen of a device that is for the folder that is encrypted, the first by its id, if there is one.
func TestWhyNothingIsSeen(t *testing.T) {
	for place, row := range []struct {
		out  map[string]error
		told string
	}{
		{nil, wire.NotShared.Error()}, {map[string]error{"a": errors.New("paused")}, wire.NotShared.Error()},
		{map[string]error{"a": errors.New("paused"), "b": wire.EncryptedFolder}, `folder "b": ` + wire.EncryptedFolder.Error()},
		{map[string]error{"c": wire.EncryptedFolder, "b": wire.EncryptedFolder, "d": wire.EncryptedFolder}, `folder "b": ` + wire.EncryptedFolder.Error()},
	} {
		if err := (&Device{Out: row.out}).whyNone(); err == nil || err.Error() != row.told {
			t.Errorf("%d: %v, not %s", place, err, row.told)
		}
	}
	device, err := Begin(context.Background(), &wire.Connection{Out: map[string]error{"a": wire.EncryptedFolder}}, nil, t.TempDir())
	if device != nil || !errors.Is(err, wire.EncryptedFolder) {
		t.Errorf("%v, %v", device, err)
	}
}

// Nothing is asked again of a folder in which the walk found nothing, or that isn't seen any more.
func TestNothingToCompare(t *testing.T) {
	device := folders(t, "docs")
	for _, walked := range [][]*Walked{nil, {{Folder: "docs"}}, {{Folder: "docs", found: nil}, {Folder: "none"}}} {
		if err := device.Compare(context.Background(), &wire.Connection{}, walked); err != nil || device.Folders[0].differ != nil {
			t.Errorf("%v", err)
		}
	}
}

// What was found of a name is had once it was put, and nothing of any other.
func TestWhatIsKeptOfDisks(t *testing.T) {
	disks, err := newDisks(t.TempDir())
	if err != nil {
		t.Fatal(err)
	}
	defer disks.close()
	node := &part.Node{Size: 3, ModifiedS: 7}
	if err := disks.put("a", disk{Node: node}); err != nil {
		t.Fatal(err)
	}
	if err := disks.db.Put([]byte("odd"), []byte("{"), nil); err != nil {
		t.Fatal(err)
	}
	for name, due := range map[string]bool{"a": true, "b": false, "": false, "a/b": false} {
		if found, is, err := disks.get(name); err != nil || is != due || (found.Node != nil) != due || due && found.Node.ModifiedS != 7 {
			t.Errorf("%q: %+v, %v, %v", name, found, is, err)
		}
	}
	if found, _, err := disks.get("odd"); err == nil {
		t.Errorf("%+v", found)
	}
	if err := disks.put("c", disk{}); err != nil {
		t.Fatal(err)
	}
	if _, is, err := disks.get("c"); err != nil || !is {
		t.Errorf("a name of which nothing was found: %v, %v", is, err)
	}
}

// By a budget the chosen files alone are asked for, and what has no bytes as ever. A file that wasn't asked for is told as one that wasn't read.
func TestWhatABudgetChooses(t *testing.T) {
	device := folders(t, "docs")
	folder := device.Folders[0]
	past, err := history.Open(t.TempDir())
	if err != nil {
		t.Fatal(err)
	}
	defer past.Close()
	plan, err := budget.Make(context.Background(), past, []budget.Place{folder.Place(choice.Names{})}, budget.Asked{Bytes: 3, IsFault: func(string, string) bool { return false }, Room: t.TempDir()})
	if err != nil {
		t.Fatal(err)
	}
	defer plan.Close()
	for _, row := range []struct {
		names  choice.Names
		chosen *budget.Plan
		told   string
		bytes  int64
	}{
		{choice.Names{}, nil, "a b c", 6}, {choice.Names{}, plan, "a c", 3}, {choice.Names{Prefix: "b"}, plan, "", 0}, {choice.Names{Prefix: "b"}, nil, "b", 3}, {choice.Names{Prefix: "c"}, plan, "c", 0},
	} {
		asked := Asked{Names: row.names, Chosen: row.chosen}
		var told []string
		err := folder.index.Each(func(entry entries.Entry) error {
			is, err := asked.wants("docs")(entry)
			if is {
				told = append(told, entry.Name)
			}
			return err
		})
		if bytes, wanted := device.Wanted(asked); err != nil || wanted != nil || strings.Join(told, " ") != row.told || bytes != row.bytes {
			t.Errorf("%+v: %q, %d bytes: %v, %v", row, told, bytes, err, wanted)
		}
	}
	gone, err := budget.Make(context.Background(), past, nil, budget.Asked{Room: t.TempDir()})
	if err != nil {
		t.Fatal(err)
	}
	gone.Close()
	if bytes, err := device.Wanted(Asked{Chosen: gone}); err == nil || bytes != 0 {
		t.Errorf("by a plan that is closed: %d, %v", bytes, err)
	}
	if err := folder.disks.put("a", disk{Node: &part.Node{Size: 3}}); err != nil {
		t.Fatal(err)
	}
	for _, chosen := range []*budget.Plan{nil, plan} {
		notRead := []string{}
		err := folder.each(Asked{Chosen: chosen}, func(line *part.Name) error {
			if line.NotRead {
				notRead = append(notRead, string(line.Name))
			}
			return nil
		})
		if err != nil || strings.Join(notRead, " ") != map[bool]string{true: "b", false: ""}[chosen != nil] {
			t.Errorf("%q aren't read: %v", notRead, err)
		}
	}
}

// A version that a device tells in letters is read, or is none: of an unknown device, of no value, of too great a value, or of one device twice.
func TestVersionsInLetters(t *testing.T) {
	devices := map[string]uint64{"AAAAAAA": 7, "BBBBBBB": 3, "CCCCCCC": 0}
	for _, row := range []struct {
		counters []string
		due      part.Version
	}{
		{nil, nil}, {[]string{"AAAAAAA:1"}, part.Version{{7, 1}}}, {[]string{"AAAAAAA:1", "BBBBBBB:2"}, part.Version{{3, 2}, {7, 1}}},
		{[]string{"AAAAAAA:9223372036854775807"}, part.Version{{7, 1<<63 - 1}}}, {[]string{"AAAAAAA:9223372036854775808"}, nil}, {[]string{"AAAAAAA:0"}, nil}, {[]string{"AAAAAAA:x"}, nil},
		{[]string{"AAAAAAA"}, nil}, {[]string{"CCCCCCC:1"}, nil}, {[]string{"DDDDDDD:1"}, nil}, {[]string{"AAAAAAA:1", "AAAAAAA:2"}, nil}, {[]string{"BBBBBBB:2", "AAAAAAA:1", "AAAAAAA:1"}, nil},
		{[]string{"AAAAAAA:1", "DDDDDDD:1"}, nil},
	} {
		if read := versionOf(row.counters, devices); !reflect.DeepEqual(read, row.due) {
			t.Errorf("%q: %v, not %v", row.counters, read, row.due)
		}
	}
}

// What is kept of a device is for its user alone, and one run at a time has it.
func TestWhoHasWhatIsKept(t *testing.T) {
	directory := filepath.Join(t.TempDir(), "kept", "docs")
	kept, err := OpenKept(directory)
	if err != nil {
		t.Fatal(err)
	}
	for _, path := range []string{directory, filepath.Dir(directory)} {
		if about, err := os.Stat(path); err != nil || about.Mode().Perm() != 0o700 {
			t.Errorf("%v, %v", about.Mode(), err)
		}
	}
	if again, err := OpenKept(directory); again != nil || !errors.Is(err, ErrBusy) {
		t.Errorf("%v", err)
	}
	kept.Close()
	again, err := OpenKept(directory)
	if err != nil {
		t.Fatal(err)
	}
	again.Close()
}

// A device is known by the first letters of its id, but where two begin alike: of these nobody knows which is meant.
func TestDevicesByTheirFirstLetters(t *testing.T) {
	first, alike, other := protocol.DeviceID{0: 1, 7: 1}, protocol.DeviceID{0: 1, 7: 2}, protocol.DeviceID{0: 9}
	letters := func(id protocol.DeviceID) string { return id.String()[:lettersOfShort] }
	if letters(first) != letters(alike) || part.Number(first.String()) == part.Number(alike.String()) {
		t.Fatal("they don't begin alike")
	}
	for place, row := range []struct {
		sharing []protocol.DeviceID
		known   []protocol.DeviceID
		due     uint64
	}{{nil, nil, part.Number(first.String())}, {nil, []protocol.DeviceID{first}, part.Number(first.String())}, {[]protocol.DeviceID{first, other}, []protocol.DeviceID{other, first}, part.Number(first.String())},
		{[]protocol.DeviceID{alike}, nil, 0}, {nil, []protocol.DeviceID{alike}, 0}, {[]protocol.DeviceID{alike, first}, []protocol.DeviceID{first}, 0}} {
		folder := &Folder{of: first}
		for _, id := range row.sharing {
			folder.said.Devices = append(folder.said.Devices, wire.Sharing{Device: id})
		}
		if numbers := folder.devicesByLetters(row.known); numbers[letters(first)] != row.due || len(row.sharing) == 2 && row.sharing[1] == other && numbers[letters(other)] != part.Number(other.String()) {
			t.Errorf("%d: %v", place, numbers)
		}
	}
}

// Where what was kept can't be read, it isn't said that the device didn't go back.
func TestWhatWasKeptCannotBeRead(t *testing.T) {
	kept, err := OpenKept(filepath.Join(t.TempDir(), "docs"))
	if err != nil {
		t.Fatal(err)
	}
	defer kept.Close()
	for _, index := range []*wire.Index{kept.last, kept.next} {
		if err := index.Put(fileOf("a", 5, true)); err != nil {
			t.Fatal(err)
		}
	}
	if from, err := kept.WentBackFrom(); from != 0 || err != nil {
		t.Errorf("%d, %v", from, err)
	}
	kept.last.Close()
	if from, err := kept.WentBackFrom(); err == nil {
		t.Errorf("%d", from)
	}
}

// However many names there are that are too long for a part, they take no memory.
func TestManyLongNames(t *testing.T) {
	const names = 60000
	folder, records := seenIn(t, "docs", nil), [][]byte{}
	for at := 0; at < names; at++ {
		records = append(records, fileOf(fmt.Sprintf("%s%06d", shell.BehindNames, at), uint64(at+1), true))
	}
	if err := folder.index.Put(records...); err != nil {
		t.Fatal(err)
	}
	records = nil
	before, count, last := inUse(), 0, part.Bytes("")
	err := folder.each(asked, func(line *part.Name) error {
		if count++; count == 1 {
			if more := inUse() - before; more > names*400 { // LevelDB keeps 8 MiB, and writes 4
				t.Errorf("%d bytes more are in use at the first name", more)
			}
		}
		if line.Name <= last || len(line.Out) != 1 || line.Out[0].Kind != part.OddName || !strings.HasPrefix(line.Out[0].Why, "its name has ") {
			t.Fatalf("%+v behind %q", line, last)
		}
		last = line.Name
		return nil
	})
	if err != nil || count != names {
		t.Errorf("%d names, %v", count, err)
	}
	if left, err := filepath.Glob(filepath.Join(filepath.Dir(folder.disks.directory), "*")); err != nil || len(left) != 1 {
		t.Errorf("%q is left, %v", left, err)
	}
}

// inUse gives how many bytes of memory are in use.
func inUse() int64 {
	var memory runtime.MemStats
	runtime.GC()
	runtime.ReadMemStats(&memory)
	return int64(memory.HeapAlloc)
}

// However many names came between the looks, they take no memory.
func TestManyNamesBetweenTheLooks(t *testing.T) {
	const names, bytesOfAName = 40000, 1000
	folder, directory, records := seenIn(t, "docs", nil), t.TempDir(), [][]byte{}
	var err error
	if folder.since, err = wire.OpenIndex(directory); err != nil {
		t.Fatal(err)
	}
	for at := 0; at < names; at++ {
		records = append(records, fileOf(fmt.Sprintf("%05d", at)+strings.Repeat("x", bytesOfAName-5), uint64(at+1), true))
	}
	if err := folder.since.Put(records...); err != nil {
		t.Fatal(err)
	}
	records = nil
	folder.since.Close()
	if folder.since, err = wire.OpenIndex(directory); err != nil {
		t.Fatal(err)
	}
	defer folder.since.Close()
	before, count := inUse(), 0
	err = folder.each(asked, func(*part.Name) error {
		if count++; count == 1 {
			if more := inUse() - before; more > names*bytesOfAName*3/4 { // LevelDB keeps 8 MiB, and up to 20 MB while it puts tables together
				t.Errorf("%d bytes more are in use at the first name", more)
			}
		}
		return nil
	})
	if err != nil || count != names {
		t.Errorf("%d names, %v", count, err)
	}
}
