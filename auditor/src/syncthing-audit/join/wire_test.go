package join

import (
	"io"
	"strings"
	"testing"
	"time"

	"github.com/syncthing/syncthing/lib/protocol"
	"syncthing-audit/part"
)

// lines is a part in memory.
type lines struct {
	head *part.Head
	left []part.Line
}

func (l *lines) Head() *part.Head { return l.head }

func (l *lines) Next() (part.Line, error) {
	if len(l.left) == 0 {
		return part.Line{}, io.EOF
	}
	next := l.left[0]
	l.left = l.left[1:]
	return next, nil
}

var ids = []string{protocol.DeviceID{0: 1, 7: 1}.String(), protocol.DeviceID{0: 2, 7: 1}.String()}

var observerID = protocol.DeviceID{0: 9, 7: 1}.String()

// partOf gives a part of a device with a folder that it shares with the other one and with an observer.
func partOf(at int, isOverWire, isOfRecords bool, max, seesUpTo int64, names ...part.Name) *Device {
	other := ids[1-at]
	folder := part.Folder{ID: "docs", Kind: "send-receive", IndexID: uint64(at + 10), Max: max, Directory: ids[at],
		Sharing: []part.Sharing{{Device: other}, {Device: observerID}}, Views: []part.View{{Device: other, IndexID: uint64(1 - at + 10), Max: seesUpTo, Heard: seesUpTo}}}
	head := &part.Head{Device: ids[at], Folders: []part.Folder{folder}}
	if isOverWire {
		head.Wire = part.NewWire(observerID, isOfRecords)
		head.Look = &part.Look{ID: "look", After: map[string]string{ids[0]: "look", ids[1]: "look"}, At: time.Unix(1, 0), Ended: time.Unix(2, 0)}
	}
	made := &lines{head: head, left: []part.Line{{Begin: &part.Begin{Folder: "docs"}}}}
	for place := range names {
		made.left = append(made.left, part.Line{Name: &names[place]})
	}
	made.left = append(made.left, part.Line{End: &part.End{Folder: "docs", Names: int64(len(names)), Max: max, Last: true}})
	return NewDevice(made, ids[at])
}

func record(sequence int64, kind int) *part.Record {
	bits := uint32(0o644)
	made := &part.Record{Type: kind, ModifiedS: 5, ModifiedBy: 1, Version: [][2]uint64{{1, 1}}, Sequence: sequence, Permissions: &bits}
	if kind == 0 {
		made.Content = &part.Content{Size: 3, BlockSize: protocol.MinBlockSize}
	}
	return made
}

// rowsOf joins two parts, and gives their rows by name.
func rowsOf(t *testing.T, one, other *Device) (*Folder, map[string]*Row) {
	t.Helper()
	plan, err := NewPlan([]*Device{one, other}, nil)
	if err != nil || len(plan.Refusals) > 0 || len(plan.Folders) != 1 {
		t.Fatal(err, plan)
	}
	made := map[string]*Row{}
	if _, err := plan.Folders[0].Rows(func(row *Row) error { made[row.Name] = row; return nil }); err != nil {
		t.Fatal(err)
	}
	return plan.Folders[0], made
}

// Syncthing on Windows drops names with a backslash from others' indexes: they aren't heard of there.
func TestNamesThatWindowsDrops(t *testing.T) {
	for system, heard := range map[string]map[string]bool{"windows": {"a": true, `a\b`: false}, "linux": {"a": true, `a\b`: true}} {
		one := partOf(0, true, true, 9, 9)
		one.Head.Half = part.NewHalf("walk", "look", system, nil)
		folder, rows := rowsOf(t, one, partOf(1, true, true, 9, 9, part.Name{Name: "a", Own: record(1, 1)}, part.Name{Name: `a\b`, Own: record(2, 1)}))
		for name, is := range heard {
			if folder.IsUnheard(rows[name], 0, 1) == is {
				t.Errorf("%s, %s: heard of is %v", system, name, !is)
			}
		}
	}
}

// Syncthing on Windows takes no name from others that Windows can't have: such names are counted where others have them.
func TestNamesThatWindowsCannotHave(t *testing.T) {
	disk := &part.Node{Size: 3, Contents: []part.Content{{Size: 3, BlockSize: protocol.MinBlockSize}}}
	var names []part.Name
	for place, name := range []string{"a:b", `a\b`, "ab", "aux.txt/b", "b.", "c.", "com.txt"} {
		made := part.Name{Name: part.Bytes(name), Own: record(int64(place+1), 1), Disk: disk}
		if name == "c." { // it is deleted
			made.Own.Deleted, made.Disk = true, nil
		}
		names = append(names, made)
	}
	for system, barred := range map[string]int64{"windows": 4, "linux": 0} {
		one := partOf(0, true, true, 9, 9)
		one.Head.Half = part.NewHalf("walk", "look", system, nil)
		folder, _ := rowsOf(t, one, partOf(1, true, true, 9, 9, names...))
		if folder.Members[0].Barred != barred || folder.Members[1].Barred != 0 {
			t.Errorf("%s: %d, %d", system, folder.Members[0].Barred, folder.Members[1].Barred)
		}
	}
}

// What a device has of another one's index is that index, up to the sequence that it names; what is behind isn't heard of. The observer isn't asked for.
func TestViewsOverTheWire(t *testing.T) {
	for _, isMixed := range []bool{false, true} {
		file := &part.Node{Size: 3, Contents: []part.Content{{Size: 3, BlockSize: protocol.MinBlockSize}}}
		standing := *file
		standing.ModifiedS, standing.Permissions = 5, 0o644
		of := file
		if isMixed {
			of = &standing
		}
		folder, rows := rowsOf(t, partOf(0, true, false, 9, 3, part.Name{Name: "heard", Own: record(9, 0), Disk: file}, part.Name{Name: "later", Own: record(8, 0), Disk: file}),
			partOf(1, !isMixed, false, 4, 9, part.Name{Name: "heard", Own: record(3, 0), Disk: of}, part.Name{Name: "later", Own: record(4, 0), Disk: of},
				part.Name{Name: "new", Own: record(2, 0), Disk: of}))
		heard := rows["heard"].At[0]
		if len(heard.Views) != 1 || heard.Views[0].Record.Sequence != 3 || len(rows["later"].At[0].Views) != 0 {
			t.Errorf("%+v, %+v", heard, rows["later"].At[0])
		}
		if folder.IsUnheard(rows["heard"], 0, 1) || !folder.IsUnheard(rows["later"], 0, 1) {
			t.Error("what is heard and what isn't")
		}
		if at := rows["new"].At[0]; at == nil || at.Own != nil || len(at.Views) != 1 {
			t.Errorf("a name that the device knows by the other one's index alone: %+v", at)
		}
		if isHeard := !folder.IsUnheard(rows["heard"], 1, 0); isHeard == isMixed { // the stopped device's part has its views itself: none
			t.Errorf("mixed %v: heard %v", isMixed, isHeard)
		}
		if len(folder.Members[0].About.Sharing) != 1 {
			t.Error("the observer is one of the folder's devices")
		}
	}
}

// Of a disk that is seen over the wire nothing is asked but bytes: what is recorded stands in place of the rest, and is counted. What is seen and isn't
// as recorded waits for a scan.
func TestDisksOverTheWire(t *testing.T) {
	content := part.Content{Size: 3, BlockSize: protocol.MinBlockSize}
	for _, isOfRecords := range []bool{false, true} {
		names := []part.Name{{Name: "cut", Own: record(1, 0)}, {Name: "directory", Own: record(2, 1)}, {Name: "gone", Own: record(3, 0)}, {Name: "there", Own: record(4, 0)}}
		if !isOfRecords {
			names[0].Disk = &part.Node{Size: 2, Contents: []part.Content{{Size: 2, BlockSize: protocol.MinBlockSize}}}
			names[3].Disk = &part.Node{Size: 3, Contents: []part.Content{content}}
		}
		folder, rows := rowsOf(t, partOf(0, true, isOfRecords, 4, 0, names...), partOf(1, true, isOfRecords, 0, 4))
		for _, name := range []string{"directory", "there"} {
			if disk := rows[name].At[0].Disk; disk == nil || disk.ModifiedS != 5 || disk.Permissions != 0o644 || len(rows[name].At[0].Moved) > 0 {
				t.Errorf("%s: %+v", name, rows[name].At[0])
			}
		}
		for _, name := range []string{"cut", "gone"} {
			if at := rows[name].At[0]; (len(at.Moved) == 1 && at.Waits != nil && at.Waits.Own != nil) == isOfRecords {
				t.Errorf("%s: %+v", name, at)
			}
		}
		want := Unseen{Standing: 1}
		if isOfRecords {
			want.Unread = 3
		}
		if got := folder.Members[0].Unseen; got != want {
			t.Errorf("%+v in place of %+v", got, want)
		}
	}
}

// A file whose bytes weren't asked for this time is taken to be as recorded, and counted; one that is missing waits for a scan.
func TestFilesThatWereNotReadThisTime(t *testing.T) {
	one := partOf(0, true, false, 4, 0, part.Name{Name: "gone", Own: record(3, 0)}, part.Name{Name: "later", Own: record(4, 0), NotRead: true})
	one.Head.Wire.IsPartial = true
	folder, rows := rowsOf(t, one, partOf(1, true, false, 0, 4))
	if at := rows["later"].At[0]; at.Disk == nil || at.Disk.Size != 3 || len(at.Moved) > 0 {
		t.Errorf("%+v", at)
	}
	if at := rows["gone"].At[0]; len(at.Moved) != 1 || folder.Members[0].Unseen != (Unseen{Unread: 1}) {
		t.Errorf("%+v, %+v", at, folder.Members[0].Unseen)
	}
}

// A device that says over the wire that its last change is before one that another device knows of went back.
func TestWentBackOverTheWire(t *testing.T) {
	plan, err := NewPlan([]*Device{partOf(0, true, false, 5, 9), partOf(1, true, false, 7, 5)}, nil)
	if err != nil || len(plan.Refusals) != 1 || !strings.Contains(plan.Refusals[0].Why, " says that it knows of its change 9, and over the wire it says later itself that its last one is 7. Either that isn't so, or its index went back") || plan.Refusals[0].Device != ids[1] {
		t.Errorf("%v, %+v", err, plan.Refusals)
	}
}

// Parts of two runs aren't joined, nor are looks over the wire and at the device itself.
func TestWhatIsNotJoinedOverTheWire(t *testing.T) {
	one, other := partOf(0, true, false, 0, 0), partOf(1, true, false, 0, 0)
	other.Head.Look.ID = "another"
	if _, err := NewPlan([]*Device{one, other}, nil); err == nil {
		t.Error("parts of two runs are joined")
	}
	looked := partOf(1, false, false, 0, 0)
	looked.Head.Look = &part.Look{ID: "look"}
	if _, err := NewPlan([]*Device{one, looked}, nil); err == nil {
		t.Error("a look over the wire is joined with one at the device")
	}
}

// ignoring is a part of disks whose patterns ignore a name.
type ignoring struct {
	lines
	name string
}

func (i *ignoring) IsIgnored(name string) bool { return name == i.name }

// A name that a member has in its views alone is ignored there where its patterns say so. Patterns that aren't known ignore nothing.
func TestNamesThatOthersTell(t *testing.T) {
	for name, isIgnored := range map[string]bool{"a": true, "b": false} {
		told := (&Member{Device: &Device{Stream: &ignoring{name: "a"}}}).namedByOthers(name)
		if string(told.Name) != name || (len(told.Out) == 1 && told.Out[0].Kind == part.Ignored) != isIgnored || len(told.Out) > 1 {
			t.Errorf("%+v", told)
		}
		if told := (&Member{Device: &Device{Stream: &lines{}}}).namedByOthers(name); string(told.Name) != name || len(told.Out) > 0 {
			t.Errorf("without patterns: %+v", told)
		}
	}
}

// Of a name of which a member can't tell what it has, or that moved there, its views aren't filled: whatever it is for which that is so.
func TestViewsOfWhatIsLeftOut(t *testing.T) {
	out, moved := part.LeftOut{Kind: part.Unreadable, Why: "x"}, part.MovedDisk
	for count := 0; count < 3; count++ {
		for _, row := range []part.Name{{Out: []part.LeftOut{out, out}[:count]}, {Moved: []string{moved, moved}[:count]}} {
			row.Name = "a"
			_, rows := rowsOf(t, partOf(0, true, true, 9, 9, row), partOf(1, true, true, 9, 9, part.Name{Name: "a", Own: record(1, 1)}))
			if at := rows["a"].At[0]; (len(at.Views) == 0) != (count > 0) {
				t.Errorf("%d left out, %d moved: %+v", len(row.Out), len(row.Moved), at)
			}
		}
	}
}

// A record without permissions stands for a file without any.
func TestPermissionsThatAreNotRecorded(t *testing.T) {
	bits := uint32(0o600)
	for _, permissions := range []*uint32{nil, &bits, new(uint32)} {
		own := record(1, 0)
		own.Permissions = permissions
		due := uint32(0)
		if permissions != nil {
			due = *permissions
		}
		if node := (&Member{Device: &Device{}}).asRecorded(own); node.Permissions != due || node.Size != 3 {
			t.Errorf("%+v, not %o", node, due)
		}
	}
}
