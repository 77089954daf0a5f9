package observe

import (
	"bytes"
	"errors"
	"io"
	"os"
	"reflect"
	"strings"
	"testing"

	"github.com/syncthing/syncthing/lib/protocol"
	"syncthing-audit/choice"
	hashing "syncthing-audit/disk"
	"syncthing-audit/part"
	"syncthing-audit/wire"
)

// written gives a device with names of each kind: before, between and behind those that came between the looks, and two that are too long for a part.
func written(t *testing.T) *Device {
	device := seen(t, map[string][]byte{"b": fileOf("b", 1, true), "d": fileOf("d", 2, true), long("x"): fileOf(long("x"), 3, true), long("y"): fileOf(long("y"), 4, true)}, "a", "c", "e", "d")
	device.Folders[0].since.Highest, device.Folders[0].bytes = 9, 7
	return device
}

func long(first string) string { return first + strings.Repeat("l", part.MostNameBytes) }

// A part that an observer writes is one: it is read to its end, with all names in their places, their number and their bytes.
func TestAPartThatIsWritten(t *testing.T) {
	device, other := written(t), &Device{ID: protocol.DeviceID{0: 2, 7: 1}}
	device.Folders[0].wentBack, device.Hello = 5, wire.Hello{Name: "laptop", Version: "v1"}
	for number := byte(8); number > 2; number-- { // others in no order
		device.Folders[0].said.Devices = append(device.Folders[0].said.Devices, wire.Sharing{Device: protocol.DeviceID{0: number, 7: number}, IndexID: uint64(number), Sequence: 3})
	}
	look := strings.Repeat("0", 32)
	var text bytes.Buffer
	if err := device.Write(&text, asked, protocol.DeviceID{0: 9, 7: 1}, look, []*Device{device, other}); err != nil {
		t.Fatal(err)
	}
	read, err := part.NewReader(&text)
	if err != nil {
		t.Fatal(err)
	}
	var names []string
	var end *part.End
	for {
		line, err := read.Next()
		if err == io.EOF {
			break
		}
		if err != nil {
			t.Fatal(err)
		}
		if line.Name != nil {
			names = append(names, string(line.Name.Name)+strings.Join(line.Name.Moved, " "))
		}
		end = line.End
	}
	hashes := []string{string(part.HiddenLongName("docs", long("x")).Bytes()), string(part.HiddenLongName("docs", long("y")).Bytes())}
	if hashes[0] > hashes[1] {
		hashes[0], hashes[1] = hashes[1], hashes[0]
	}
	if expected := append([]string{"arecord", "b", "crecord", "drecord", "erecord"}, hashes...); !reflect.DeepEqual(names, expected) {
		t.Errorf("%q, not %q", names, expected)
	}
	if !reflect.DeepEqual(end, &part.End{Folder: "docs", Names: 7, Bytes: 7, Max: 9, Last: true}) {
		t.Errorf("%+v", end)
	}
	head := read.Head()
	ids := map[string]string{device.ID.String(): look, other.ID.String(): look}
	if !reflect.DeepEqual(head.Look.After, ids) || head.Wire.WentBackFrom != 5 || head.Name != "laptop" || head.Folders[0].Indexed != 4 || len(head.Folders[0].Views) != 6 {
		t.Errorf("%+v, %+v", head, head.Look)
	}
	for place := 1; place < 6; place++ {
		if head.Folders[0].Views[place-1].Device >= head.Folders[0].Views[place].Device || head.Folders[0].Sharing[place-1].Device >= head.Folders[0].Sharing[place].Device {
			t.Errorf("devices aren't in their places: %v", head.Folders[0].Views)
		}
	}
}

// A part has several folders one after another, each with its own index and from where that went back. It says which the device didn't show, and why.
func TestAPartOfSeveralFolders(t *testing.T) {
	device := written(t)
	device.Folders[0].wentBack = 5
	device.Folders = append(device.Folders, seenIn(t, "photos", map[string][]byte{"p": fileOf("p", 1, true)}, "q"))
	device.Folders[1].since.Highest = 12
	device.Out["secret"], device.Out["other"] = wire.EncryptedFolder, wire.Paused
	var text bytes.Buffer
	if err := device.Write(&text, asked, protocol.DeviceID{0: 9, 7: 1}, strings.Repeat("0", 32), []*Device{device}); err != nil {
		t.Fatal(err)
	}
	read, err := part.NewReader(&text)
	if err != nil {
		t.Fatal(err)
	}
	names, folder, ends := map[string]int{}, "", []part.End{}
	for {
		line, err := read.Next()
		if err == io.EOF {
			break
		}
		if err != nil {
			t.Fatal(err)
		}
		switch {
		case line.Begin != nil:
			folder = line.Begin.Folder
		case line.End != nil:
			ends = append(ends, *line.End)
		default:
			names[folder]++
		}
	}
	if expected := []part.End{{Folder: "docs", Names: 7, Bytes: 7, Max: 9}, {Folder: "photos", Names: 2, Max: 12, Last: true}}; !reflect.DeepEqual(ends, expected) {
		t.Errorf("%+v", ends)
	}
	head := read.Head()
	without := []part.Without{{Folder: "other", Why: wire.Paused.Error()}, {Folder: "secret", Why: wire.EncryptedFolder.Error(), IsEncrypted: true}}
	if !reflect.DeepEqual(names, map[string]int{"docs": 7, "photos": 2}) || !reflect.DeepEqual(head.Wire.Without, without) {
		t.Errorf("%v, %+v", names, head.Wire)
	}
	if head.Wire.WentBackFrom != 5 || head.Folders[0].WentBackFrom != 5 || head.Folders[1].WentBackFrom != 0 {
		t.Errorf("%+v, %+v", head.Wire, head.Folders)
	}
	for at, wanted := range []*Folder{device.Folders[0], device.Folders[1], nil} {
		if got := device.Folder([]string{"docs", "photos", "other"}[at]); got != wanted {
			t.Errorf("%d: %v", at, got)
		}
	}
}

// Whoever takes the lines may fail at any of them: nothing is given behind that, and the error is told.
func TestWhoeverTakesTheLinesMayFail(t *testing.T) {
	failed := errors.New("no room")
	for failsAt := 1; failsAt <= 9; failsAt++ {
		device, count := written(t), 0
		head := device.head(asked, protocol.DeviceID{0: 9, 7: 1}, "look", nil)
		err := device.lines(asked, head, func(part.Line) error {
			if count++; count == failsAt {
				return failed
			}
			return nil
		})
		if err != failed || count != failsAt {
			t.Errorf("line %d: %v behind %d", failsAt, err, count)
		}
	}
	device := written(t)
	if err := device.Write(full{}, asked, protocol.DeviceID{0: 9, 7: 1}, strings.Repeat("0", 32), nil); err == nil {
		t.Error("a part is written where there is no room")
	}
	device.Folders[0].said.Devices = make([]wire.Sharing, 2000)
	for place := range device.Folders[0].said.Devices {
		device.Folders[0].said.Devices[place].Device = protocol.DeviceID{0: byte(place), 1: byte(place >> 8), 7: 5}
	}
	if err := device.Write(io.Discard, asked, protocol.DeviceID{0: 9, 7: 1}, strings.Repeat("0", 32), nil); err == nil {
		t.Error("a part of too many devices is written")
	}
}

type full struct{}

func (full) Write([]byte) (int, error) { return 0, errors.New("no room") }

// What can't be read of an index, or of what was found, ends the lines.
func TestWhatCannotBeReadOfWhatWasSeen(t *testing.T) {
	for why, spoil := range map[string]func(of *Folder) error{
		"the first look's index": func(of *Folder) error { return of.index.Close() },
		"what came since":        func(of *Folder) error { return of.since.Close() },
		"what was found":         func(of *Folder) error { return of.disks.db.Close() },
		"a text that is damaged": func(of *Folder) error { return of.disks.db.Put([]byte("b"), []byte("{"), nil) },
	} {
		device := written(t).Folders[0]
		if err := spoil(device); err != nil {
			t.Fatal(err)
		}
		if err := device.each(asked, func(*part.Name) error { return nil }); err == nil {
			t.Errorf("%s: nothing is told", why)
		}
	}
}

// What is found becomes what a part says. Of a file that wasn't read to its end nobody knows which other files have its bytes.
func TestWhatIsFoundOfAFile(t *testing.T) {
	id := protocol.DeviceID{0: 1}
	found := wire.Found{State: wire.Differs, Size: 9, BlockSize: protocol.MinBlockSize, Blocks: [][32]byte{{1}}, Differ: &part.Differ{Count: 1}}
	told := diskOf(id, "a", found)
	expected := part.Node{Size: 9, Contents: []part.Content{{Size: 9, BlockSize: protocol.MinBlockSize, Hash: hashing.HashOf(found.Blocks)}}, Differ: found.Differ}
	if told.Out != nil || !reflect.DeepEqual(*told.Node, expected) {
		t.Errorf("%+v", told.Node)
	}
	found.Unread = 4
	hashes := map[part.Hash]string{expected.Contents[0].Hash: "what was read"}
	for _, name := range []string{"a", "b"} {
		for _, of := range []protocol.DeviceID{id, {0: 2}} {
			node := diskOf(of, name, found).Node
			if had := hashes[node.Contents[0].Hash]; had != "" || node.Unread != 4 {
				t.Errorf("%s has the bytes of %s", name, had)
			}
			hashes[node.Contents[0].Hash] = name
		}
	}
}

// What isn't what was encrypted is no other file's content, on no other device and under no other name; what is encrypted as it should be has its hashes.
func TestWhatWasEncryptedOtherwise(t *testing.T) {
	found := wire.Found{State: wire.Differs, Sealed: true, Size: 9, BlockSize: protocol.MinBlockSize, Blocks: [][32]byte{{1}}}
	hashes := map[part.Hash]string{hashing.HashOf(found.Blocks): "what was read"}
	for _, name := range []string{"a", "b"} {
		for _, of := range []protocol.DeviceID{{0: 1}, {0: 2}} {
			content := diskOf(of, name, found).Node.Contents[0]
			if had := hashes[content.Hash]; had != "" || content.Size != 9 {
				t.Errorf("%s has the bytes of %s", name, had)
			}
			hashes[content.Hash] = name
		}
	}
	for _, state := range []wire.State{wire.Same, wire.Present} {
		found.State = state
		if content := diskOf(protocol.DeviceID{0: 1}, "a", found).Node.Contents[0]; content.Hash != hashing.HashOf(found.Blocks) {
			t.Errorf("%v: other bytes than those that are there", state)
		}
	}
}

// Of the names alone that are asked for there are lines, be they recorded, new or too long.
func TestNamesThatAreNotAskedFor(t *testing.T) {
	for prefix, due := range map[string]string{"": "abcde##", "b": "b", "c": "c", "x": "#", "z": ""} {
		told := ""
		err := written(t).Folders[0].each(Asked{Names: choice.Names{Prefix: prefix}}, func(line *part.Name) error {
			if letter := string(line.Name); len(letter) == 1 {
				told += letter
			} else {
				told += "#"
			}
			return nil
		})
		if err != nil || told != due {
			t.Errorf("%q: %s, not %s, %v", prefix, told, due, err)
		}
	}
}

// Nothing is left of a device that is closed, and its index for the second look says that it has what the first one had.
func TestNothingIsLeftOfADevice(t *testing.T) {
	room := t.TempDir()
	folder := &Folder{said: wire.Folder{ID: "docs"}, index: wire.NewIndex(7)}
	folder.index.Highest = 5
	var err error
	if folder.disks, err = newDisks(room); err != nil {
		t.Fatal(err)
	}
	device := &Device{Folders: []*Folder{folder}}
	kept, err := device.Since(room, "docs")
	if err != nil || kept.ID != 7 || kept.Highest != 5 {
		t.Fatal(kept, err)
	}
	if entries, _ := os.ReadDir(room); len(entries) != 2 {
		t.Errorf("%v", entries)
	}
	device.Close()
	if entries, err := os.ReadDir(room); err != nil || len(entries) > 0 {
		t.Errorf("%v are left, %v", entries, err)
	}
	for _, nowhere := range []func() error{func() error { _, err := newDisks("/nowhere"); return err }, func() error { _, err := (&Device{}).Since("/nowhere", "docs"); return err }} {
		if nowhere() == nil {
			t.Error("something is made where nothing is")
		}
	}
	(&Device{}).Close()
}
