package part

import (
	"bytes"
	"io"
	"reflect"
	"testing"
	"time"

	"github.com/syncthing/syncthing/lib/protocol"
)

var (
	thisDevice  = protocol.DeviceID{7: 1}.String()
	otherDevice = protocol.DeviceID{7: 2}.String()
	thirdDevice = protocol.DeviceID{7: 3}.String()

	fourthDevice = protocol.DeviceID{7: 4}.String()
)

// aWhole is a part with all that a name may have, by the places of its lines: 0 begins docs; 1 is a file whose blocks differ, 2 a directory,
// 3 a symlink, 4 what is deleted, 5 what is left out; 6 ends docs, 7 begins pics and 8 ends it.
type aWhole struct {
	head  *Head
	lines []Line
}

func aPart() *aWhole {
	content := Content{Size: 3 * protocol.MinBlockSize, BlockSize: protocol.MinBlockSize, Hash: Hash{1}}
	record := func(sequence int64, kind int) *Record {
		return &Record{Type: kind, ModifiedBy: 1, Version: [][2]uint64{{1, 2}, {3, 4}}, Sequence: sequence}
	}
	file, directory, link, deleted := record(1, 0), record(2, 1), record(3, symlink), record(4, 0)
	file.Content, link.Target, deleted.Deleted = &content, "a", true
	view := func(of *Record) []Seen {
		first, second := *of, *of
		first.Sequence, second.ModifiedS = 7, 9
		return []Seen{{View: 0, Record: &first}, {View: 1, Record: &second}}
	}
	found := content
	disk := &Node{Size: content.Size, Contents: []Content{found}, Differ: &Differ{Count: 2, Ranges: [][2]int64{{0, 0}, {2, 2}}}}
	folder := Folder{ID: "docs", Kind: "send-receive", IndexID: 1, Max: 9, Sharing: []Sharing{{Device: otherDevice}},
		Views: []View{{Device: otherDevice, IndexID: 2, Max: 7}, {Device: thirdDevice, IndexID: 3, Max: 8}}}
	pics := Folder{ID: "pics", Kind: "send-only", IndexID: 4}
	head := &Head{Version: FirstVersion, Device: thisDevice, Made: time.Unix(0, 0).UTC(), Folders: []Folder{folder, pics},
		Others: []Other{{ID: "a", Devices: []string{otherDevice}}, {ID: "z", Devices: []string{}}}}
	return &aWhole{head, []Line{{Begin: &Begin{"docs"}}, {Name: &Name{Name: "a", Own: file, Views: view(file), Disk: disk}},
		{Name: &Name{Name: "b", Own: directory, Disk: &Node{Type: 1}}}, {Name: &Name{Name: "c", Own: link, Disk: &Node{Type: symlink, Target: "x"}}},
		{Name: &Name{Name: "d", Own: deleted, Views: view(deleted)}}, {Name: &Name{Name: "e", Out: []LeftOut{{Kind: Damaged, Why: "x"}, {Kind: Special, Why: "y", Bytes: 5}}}},
		{End: &End{Folder: "docs", Names: 5, Max: 9, Temporary: &Count{}, Linked: &Count{}}}, {Begin: &Begin{"pics"}}, {End: &End{Folder: "pics", Last: true}}}}
}

// name gives the name of a line.
func (w *aWhole) name(line int) *Name { return w.lines[line].Name }

// written gives the bytes of the part, as a device may write them that keeps to no rule.
func (w *aWhole) written(t testing.TB) []byte {
	var written bytes.Buffer
	to, err := NewWriter(&written, w.head)
	for at := 0; at < len(w.lines) && err == nil; at++ {
		err = to.Take(w.lines[at])
	}
	if err == nil {
		err = to.Close()
	}
	if err != nil {
		t.Fatal(err)
	}
	return written.Bytes()
}

// inLines gives the bytes of the part in encoding 1.
func (w *aWhole) inLines(t *testing.T) []byte {
	var written bytes.Buffer
	to, err := NewLinesWriter(&written, w.head)
	for at := 0; at < len(w.lines) && err == nil; at++ {
		err = to.Take(w.lines[at])
	}
	if err != nil {
		t.Fatal(err)
	}
	return zipped(written.String())
}

// readAll reads a part to its end, and gives its lines.
func readAll(data []byte) (*Reader, []Line, error) {
	read, err := NewReader(bytes.NewReader(data))
	if err != nil {
		return nil, nil, err
	}
	var lines []Line
	for {
		line, err := read.Next()
		if err == io.EOF {
			return read, lines, nil
		}
		if err != nil {
			return read, lines, err
		}
		lines = append(lines, line)
	}
}

// areOne says whether lines are one, however each view has a record that is the own one.
func areOne(lines, others []Line) bool {
	return reflect.DeepEqual(allShortened(lines), allShortened(others))
}

func allShortened(lines []Line) []Line {
	short := append([]Line(nil), lines...)
	for place := range short {
		if name := short[place].Name; name != nil {
			short[place].Name = new(shortener).shorten(name)
		}
	}
	return short
}

// looking makes a part one of a first look, with this id.
func looking(id string) func(*aWhole) {
	return func(w *aWhole) {
		w.head.Version, w.head.Look = VersionOfLooks, &Look{Home: "home", ID: id, At: time.Unix(1, 0).UTC()}
	}
}

const lookID = "00112233445566778899aabbccddeeff"
