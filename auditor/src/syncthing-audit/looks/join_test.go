package looks

import (
	"fmt"
	"io"
	"reflect"
	"strings"
	"testing"
	"time"

	"github.com/syncthing/syncthing/lib/protocol"
	"syncthing-audit/choice"
	"syncthing-audit/part"
)

var (
	here  = protocol.DeviceID{7: 1}.String()
	there = protocol.DeviceID{7: 2}.String()
)

const id = "00112233445566778899aabbccddeeff"

// lines is a part in memory.
type lines struct {
	head part.Head
	rest []part.Line
}

func (l *lines) Head() *part.Head { return &l.head }
func (l *lines) Next() (part.Line, error) {
	if len(l.rest) == 0 {
		return part.Line{}, io.EOF
	}
	next := l.rest[0]
	l.rest = l.rest[1:]
	return next, nil
}

// lookAt gives a look at a device's folder with these names.
func lookAt(look part.Look, names ...*part.Name) *lines {
	folder := part.Folder{ID: "docs", Kind: "send-receive", Directory: "x", IndexID: 1, Max: 9,
		Sharing: []part.Sharing{{Device: there}}, Views: []part.View{{Device: there, IndexID: 2, Max: 5}}}
	made := &lines{head: part.Head{Version: part.VersionOfLooks, Device: here, Folders: []part.Folder{folder}, Look: &look},
		rest: []part.Line{{Begin: &part.Begin{Folder: "docs"}}}}
	for _, one := range names {
		made.rest = append(made.rest, part.Line{Name: one})
	}
	made.rest = append(made.rest, part.Line{End: &part.End{Folder: "docs", Names: int64(len(names)), Max: 9, Last: true}})
	return made
}

func firstLook(names ...*part.Name) *lines {
	return lookAt(part.Look{Home: "home", ID: id, At: time.Unix(1, 0)}, names...)
}

func secondLook(names ...*part.Name) *lines {
	made := lookAt(part.Look{Home: "home", After: map[string]string{here: id}, At: time.Unix(9, 0)}, names...)
	made.head.Folders[0].Views[0].Max = 6
	return made
}

// aFile gives what a device has of a file in step, after a change.
func aFile(change func(*part.Name)) *part.Name {
	record := part.Record{ModifiedS: 3, ModifiedBy: 1, Version: [][2]uint64{{1, 2}}, Sequence: 4, Content: &part.Content{Size: 5, BlockSize: 131072}}
	seen := record
	made := &part.Name{Name: "a", Own: &record, Views: []part.Seen{{Record: &seen}}, Disk: &part.Node{ModifiedS: 3, Size: 5, Stamp: "1"}}
	change(made)
	return made
}

func unchanged(*part.Name) {}

// viewOfOwn gives a name's view the own record with this sequence.
func viewOfOwn(sequence int64) func(*part.Name) {
	return func(n *part.Name) { n.Views[0].Same, n.Views[0].Record = sequence, n.Own }
}

// joined gives the names of both looks.
func joined(t *testing.T, first, second *lines) []*part.Name {
	// What the second look counts is told: as long as Syncthing runs, its temporary files come and go.
	temporary := &part.Count{Names: 1}
	second.rest[len(second.rest)-1].End.Temporary = temporary
	stream, err := Join(first, second)
	if err != nil {
		t.Fatal(err)
	}
	var names []*part.Name
	for {
		line, err := stream.Next()
		if err == io.EOF {
			return names
		}
		if err != nil {
			t.Fatal(err)
		}
		if line.Name != nil {
			names = append(names, line.Name)
		}
		if line.End != nil && (line.End.Names != int64(len(names)) || line.End.Temporary != temporary) {
			t.Errorf("the end counts %d names, not %d, and %v temporary ones", line.End.Names, len(names), line.End.Temporary)
		}
	}
}

// pairsOfLooks are what two looks see of a name, and what is told of that.
var pairsOfLooks = []struct {
	why            string
	first, second  func(*part.Name)
	moved          string
	isOnce, atLast bool // whether one look has it alone, and which one
}{
	{why: "nothing changed", first: unchanged, second: unchanged},
	{why: "another sequence", first: unchanged, second: func(n *part.Name) { n.Own.Sequence++ }, moved: "record"},
	{why: "another version", first: unchanged, second: func(n *part.Name) { n.Own.Version = [][2]uint64{{1, 3}} }, moved: "record"},
	{why: "no record any more", first: unchanged, second: func(n *part.Name) { n.Own = nil }, moved: "record unscanned"},
	{why: "a pull that was recorded meanwhile", first: func(n *part.Name) { n.Own.ModifiedS-- }, second: unchanged, moved: "record"},
	{why: "a deletion that was recorded meanwhile", first: func(n *part.Name) { n.Disk = nil }, second: deleted, moved: "record"},
	{why: "a view with another sequence", first: unchanged, second: func(n *part.Name) { n.Views[0].Record.Sequence++ }, moved: "views"},
	{why: "a view of the own record", first: unchanged, second: viewOfOwn(4)},
	{why: "a view of the own record with another sequence", first: viewOfOwn(5), second: viewOfOwn(6), moved: "views"},
	{why: "no view any more", first: unchanged, second: func(n *part.Name) { n.Views = nil }, moved: "views"},
	{why: "another size", first: unchanged, second: func(n *part.Name) { n.Disk.Size++ }, moved: "disk"},
	{why: "another time", first: unchanged, second: func(n *part.Name) { n.Disk.ModifiedNs++ }, moved: "disk"},
	{why: "written with its time put back", first: unchanged, second: func(n *part.Name) { n.Disk.Stamp = "2" }, moved: "disk"},
	{why: "other permissions", first: unchanged, second: func(n *part.Name) { n.Disk.Permissions++ }, moved: "disk"},
	{why: "gone from the disk", first: unchanged, second: func(n *part.Name) { n.Disk = nil }, moved: "disk"},
	{why: "it changed while it was hashed", first: func(n *part.Name) { n.Moved = []string{"disk"} }, second: unchanged, moved: "disk"},
	{why: "the index was in the middle of an update", first: unchanged, second: func(n *part.Name) { n.Moved = []string{"views"} }, moved: "views"},
	{why: "received meanwhile", first: unchanged, second: func(n *part.Name) { n.Receiving = "2" }, moved: "receiving"},
	{why: "received on", first: func(n *part.Name) { n.Receiving = "1" }, second: func(n *part.Name) { n.Receiving = "2" }, moved: "receiving"},
	{why: "a temporary file that nobody writes", first: func(n *part.Name) { n.Receiving = "1" }, second: func(n *part.Name) { n.Receiving = "1" }},
	{why: "all at once", first: unchanged, second: func(n *part.Name) { n.Own.Sequence++; n.Views = nil; n.Disk = nil }, moved: "record views disk"},
	{why: "another time than recorded", first: func(n *part.Name) { n.Disk.ModifiedS++ }, second: func(n *part.Name) { n.Disk.ModifiedS++ }, moved: "unscanned"},
	{why: "missing", first: func(n *part.Name) { n.Disk = nil }, second: func(n *part.Name) { n.Disk = nil }, moved: "unscanned"},
	{why: "back", first: func(n *part.Name) { n.Own.Deleted = true }, second: func(n *part.Name) { n.Own.Deleted = true }, moved: "unscanned"},
	{why: "deleted", first: deleted, second: deleted},
	{why: "a directory in which files came", first: directory, second: func(n *part.Name) { directory(n); n.Disk.ModifiedS = 99 }},
	{why: "at the first look alone", first: unchanged, isOnce: true, moved: "record views disk"},
	{why: "at the second look alone", first: unchanged, isOnce: true, atLast: true, moved: "record views disk"},
	{why: "a file for a moment", first: func(n *part.Name) { n.Own, n.Views = nil, nil }, isOnce: true, moved: "disk"},
	{why: "what can't be read", first: unreadable, second: unchanged},
	{why: "what can't be read and changed", first: unreadable, second: func(n *part.Name) { n.Disk.Stamp = "2" }, moved: "disk"},
	{why: "an odd entry", first: odd, second: odd},
	{why: "an entry that is odd for another reason", first: odd, second: func(n *part.Name) { odd(n); n.Out[0].Why = "another" }, moved: "disk"},
	{why: "an entry that became odd", first: unchanged, second: odd, moved: "record views disk"},
	{why: "ignored at both, whatever its file does", first: ignored, second: func(n *part.Name) { ignored(n); n.Disk.Stamp = "2" }},
	{why: "ignored for a moment", first: ignored, isOnce: true},
}

// A name is still where nothing of it changed. Whatever changed, it is said.
func TestStillNames(t *testing.T) {
	for _, one := range pairsOfLooks {
		first, second := firstLook(aFile(one.first)), secondLook()
		switch {
		case one.atLast:
			first, second = firstLook(), secondLook(aFile(one.first))
		case !one.isOnce:
			second = secondLook(aFile(one.second))
		}
		names := joined(t, first, second)
		if len(names) != 1 || strings.Join(names[0].Moved, " ") != one.moved {
			t.Errorf("%s: %+v", one.why, names)
			continue
		}
		if isTold := names[0].Own != nil || names[0].Views != nil; one.moved != "" && isTold {
			t.Errorf("%s: what moved is told: %+v", one.why, names[0])
		}
		if one.moved == "" && names[0].Disk != nil && names[0].Disk.Stamp != "" && !one.isOnce {
			t.Errorf("%s: the stamp is told", one.why)
		}
	}
}

func deleted(n *part.Name) { n.Own.Deleted, n.Own.Content, n.Disk = true, nil, nil }

func directory(n *part.Name) {
	n.Own.Type, n.Own.Content = 1, nil
	n.Disk = &part.Node{Type: 1}
}

func unreadable(n *part.Name) {
	n.Out = []part.LeftOut{{Kind: part.Unreadable, Why: "it can't be read"}}
}

func odd(n *part.Name) {
	*n = part.Name{Name: n.Name, Out: []part.LeftOut{{Kind: part.OddRecord, Why: "it is encrypted"}}}
}

func ignored(n *part.Name) {
	n.Own, n.Views = nil, nil
	n.Out = []part.LeftOut{{Kind: part.Ignored, Why: "it is ignored"}}
}

// Of a name that waits for a scan it is kept what both looks saw: the last record, and the disk. Of what moves otherwise nothing is.
func TestWhatBothLooksSawOfANameThatWaits(t *testing.T) {
	emptied := func(n *part.Name) { n.Disk.Size = 0 }
	for why, one := range map[string]struct {
		first, second func(*part.Name)
		isKept        bool
	}{
		"emptied":                     {emptied, emptied, true},
		"missing":                     {func(n *part.Name) { n.Disk = nil }, func(n *part.Name) { n.Disk = nil }, true},
		"emptied, and a view changed": {emptied, func(n *part.Name) { emptied(n); n.Views = nil }, true},
		"emptied between the looks":   {unchanged, emptied, false},
		"scanned between the looks":   {emptied, func(n *part.Name) { emptied(n); n.Own.Content.Size = 0 }, false},
		"in step":                     {unchanged, unchanged, false},
	} {
		name := joined(t, firstLook(aFile(one.first)), secondLook(aFile(one.second)))[0]
		if (name.Waits != nil) != one.isKept {
			t.Errorf("%s: %+v", why, name)
			continue
		}
		if one.isKept && (name.Waits.Own.Content.Size != 5 || name.Waits.Disk != nil && (name.Waits.Disk.Size != 0 || name.Waits.Disk.Stamp != "")) {
			t.Errorf("%s: %+v", why, name.Waits)
		}
	}
}

// Names of one look alone stand in their places among the others.
func TestOrderOfJoinedNames(t *testing.T) {
	named := func(names string) []*part.Name {
		var made []*part.Name
		for _, one := range names {
			made = append(made, aFile(func(n *part.Name) { n.Name = part.Bytes(string(one)) }))
		}
		return made
	}
	told := ""
	for _, one := range joined(t, firstLook(named("abdf")...), secondLook(named("bcdeg")...)) {
		told += string(one.Name)
		if len(one.Moved) == 0 {
			told += "!"
		}
	}
	if told != "ab!cd!efg" {
		t.Error(told)
	}
}

// A view's greatest sequence is that of the first look, where it was heard of that of the second one; the own one is that
// of the second look.
func TestHeadOfBothLooks(t *testing.T) {
	first, second := firstLook(), secondLook()
	second.head.Folders[0].Max = 12
	third := protocol.DeviceID{7: 3}.String()
	second.head.Folders[0].Views = append([]part.View{{Device: third, IndexID: 3, Max: 1}}, second.head.Folders[0].Views...)
	stream, err := Join(first, second)
	if err != nil {
		t.Fatal(err)
	}
	folder := stream.Head().Folders[0]
	if folder.Max != 12 || !reflect.DeepEqual(folder.Views, []part.View{{Device: there, IndexID: 2, Max: 5, Heard: 6}, {Device: third}}) {
		t.Errorf("%+v", folder)
	}
}

// Looks that don't belong together are refused.
func TestLooksThatAreRefused(t *testing.T) {
	cases := []struct {
		why    string
		change func(first, second *part.Head)
	}{
		{"two first looks", func(_, second *part.Head) { second.Look = &part.Look{Home: "home", ID: id} }},
		{"another device", func(_, second *part.Head) { second.Device = there }},
		{"no token", func(_, second *part.Head) { second.Look.After = map[string]string{there: id} }},
		{"the token of another look", func(_, second *part.Head) { second.Look.After[here] = "ff" + id[2:] }},
		{"another home", func(_, second *part.Head) { second.Look.Home = "copy" }},
		{"other names", func(_, second *part.Head) { second.Prefix = "a" }},
		{"another slice", func(first, second *part.Head) {
			first.Names, second.Names = choice.Names{Slice: 1, Slices: 7}, choice.Names{Slice: 2, Slices: 7}
		}},
		{"a slice, and all names", func(first, _ *part.Head) { first.Names = choice.Names{Slice: 1, Slices: 7} }},
	}
	for _, one := range cases {
		first, second := firstLook(), secondLook()
		one.change(&first.head, &second.head)
		if _, err := Join(first, second); err == nil {
			t.Errorf("%s: they were joined", one.why)
		}
	}
}

// Both looks are at one slice, and what they are joined to is of that. Who looked at two slices is told both.
func TestLooksAtASlice(t *testing.T) {
	first, second := firstLook(), secondLook()
	first.head.Names, second.head.Names = choice.Names{Slice: 1, Slices: 7}, choice.Names{Slice: 1, Slices: 7}
	made, err := Join(first, second)
	if err != nil || made.Head().Names != first.head.Names {
		t.Error(err)
	}
	second.head.Names.Slice = 2
	_, err = Join(first, second)
	const told = "the first look is at slice 1 of 7 of all names, and the second one at slice 2 of 7 of all names: make both with the same --slice"
	if err == nil || err.Error() != told {
		t.Error(err)
	}
}

// A view of another index is another view, though its records look the same.
func TestAViewOfANewIndex(t *testing.T) {
	second := secondLook(aFile(unchanged))
	second.head.Folders[0].Views[0].IndexID++
	if names := joined(t, firstLook(aFile(unchanged)), second); fmt.Sprint(names[0].Moved) != "[views]" {
		t.Errorf("%+v", names[0])
	}
}

func TestTokens(t *testing.T) {
	made, err := NewID()
	if err != nil {
		t.Fatal(err)
	}
	other, _ := NewID()
	if made == other {
		t.Error("two looks have one id")
	}
	cases := []struct {
		why, text string
		good      bool
		count     int
	}{
		{"two", Token(here, made) + "\n\n" + Token(there, other) + "\n", true, 2},
		{"one twice", Token(here, made) + "\n" + Token(here, made), true, 1},
		{"none", "", true, 0},
		{"two of one device", Token(here, made) + "\n" + Token(here, other), false, 0},
		{"no device", "x:" + made, false, 0},
		{"no id", here, false, 0},
		{"half an id", Token(here, made[:10]), false, 0},
	}
	for _, one := range cases {
		read := map[string]string{}
		if err := ReadTokens(strings.NewReader(one.text), read); (err == nil) != one.good || one.good && len(read) != one.count {
			t.Errorf("%s: %v, %v", one.why, read, err)
		}
	}
}
