package read

import (
	"testing"

	"github.com/syncthing/syncthing/lib/protocol"
	"syncthing-audit/choice"
	"syncthing-audit/forecast"
	"syncthing-audit/join"
	"syncthing-audit/part"
)

func id(place int) string { return protocol.DeviceID{7: byte(place + 1)}.String() }

// folderOf gives a folder that so many devices share.
func folderOf(count int) *join.Folder {
	folder := &join.Folder{ID: "docs"}
	for place := 0; place < count; place++ {
		about := &part.Folder{ID: "docs", Kind: "send-receive", IndexID: uint64(place + 1), Max: 9, Options: &part.Options{MaxConflicts: 10}}
		for other := 0; other < count; other++ {
			if other != place {
				about.Sharing = append(about.Sharing, part.Sharing{Device: id(other)})
				about.Views = append(about.Views, part.View{Device: id(other), IndexID: uint64(other + 1), Max: 9})
			}
		}
		head := &part.Head{Device: id(place), Runs: "v1.29.5", Folders: []part.Folder{*about}}
		folder.Members = append(folder.Members, join.Member{Device: &join.Device{Head: head, Number: head.Number()}, About: about})
	}
	return folder
}

func told(change func(*part.Record)) *part.Record {
	record := &part.Record{ModifiedS: 100, ModifiedBy: 1, Version: [][2]uint64{{1, 1}}, Sequence: 5,
		Content: &part.Content{Size: 5, BlockSize: protocol.MinBlockSize, Hash: part.Hash{1}}}
	if change != nil {
		change(record)
	}
	return record
}

// calm gives a name of two devices that is at rest, after a change.
func calm(name string, change func(row *join.Row)) *join.Row {
	row := &join.Row{Name: name}
	for place := 0; place < 2; place++ {
		row.At = append(row.At, &part.Name{Name: part.Bytes(name), Own: told(nil), Views: []part.Seen{{Record: told(nil)}},
			Disk: &part.Node{ModifiedS: 100, Size: 5, Contents: []part.Content{*told(nil).Content}}})
	}
	if change != nil {
		change(row)
	}
	return row
}

func delete(row *join.Row, member int) {
	row.At[member].Own.Deleted, row.At[member].Own.Content, row.At[member].Disk = true, nil, nil
}

var permissions = uint32(0o600)

var restless = []struct {
	why    string
	change func(*join.Row)
}{
	{"one device lacks it", func(row *join.Row) { row.At[1] = nil }},
	{"one disk lacks it", func(row *join.Row) { row.At[1].Disk = nil }},
	{"other bytes", func(row *join.Row) { row.At[1].Disk.Contents[0].Hash[0] = 9 }},
	{"another time", func(row *join.Row) { row.At[0].Disk.ModifiedS = 101 }},
	{"a nanosecond later", func(row *join.Row) { row.At[0].Disk.ModifiedNs = 1 }},
	{"another mode", func(row *join.Row) { row.At[0].Own.Permissions, row.At[1].Own.Permissions = &permissions, &permissions }},
	{"another version", func(row *join.Row) { row.At[1].Own.Version = [][2]uint64{{1, 2}} }},
	{"a deletion", func(row *join.Row) { delete(row, 1) }},
	{"a local change", func(row *join.Row) { row.At[1].Own.Invalid, row.At[1].Own.Local = true, [][2]uint64{{1, 1}} }},
	{"one hasn't heard of it", func(row *join.Row) { row.At[0].Views = nil }},
	{"one has heard of another version", func(row *join.Row) { row.At[0].Views[0].Record.Version = [][2]uint64{{2, 2}} }},
	{"one has heard of it, and hasn't taken it", func(row *join.Row) { row.At[0].Views, row.At[1].Own, row.At[1].Disk = nil, nil, nil }},
	{"a name that no scan has seen", func(row *join.Row) { row.At[0].Own, row.At[0].Views, row.At[1] = nil, nil, nil }},
	{"a name that one has heard of", func(row *join.Row) { row.At[0].Own, row.At[0].Disk, row.At[1] = nil, nil, nil }},
}

// Names that are at rest are no part of the world, and all others are.
func TestWhatIsAtRest(t *testing.T) {
	rows := NewRows(folderOf(2))
	rows.Take(calm("a", nil))
	rows.Take(calm("b", func(row *join.Row) {
		delete(row, 0)
		delete(row, 1)
		for _, at := range row.At {
			at.Views[0].Record.Deleted, at.Views[0].Record.Content = true, nil
		}
	}))
	rows.Take(calm("c", func(row *join.Row) { row.At[0], row.At[1] = &part.Name{Name: "c"}, nil })) // nobody has anything of it
	if world := rows.World(); len(world.Names) != 0 {
		t.Errorf("%+v aren't at rest", world.Names)
	}
	for _, restless := range restless {
		rows := NewRows(folderOf(2))
		rows.Take(calm("a", restless.change))
		if len(rows.World().Names) != 1 {
			t.Errorf("%s: it is at rest", restless.why)
		}
	}
}

// What hangs together with what isn't at rest is part of the world, too.
func TestWhatIsBelow(t *testing.T) {
	directory := func(row *join.Row) {
		for _, at := range row.At {
			at.Own.Type, at.Own.Content, at.Views[0].Record.Type, at.Views[0].Record.Content = 1, nil, 1, nil
			at.Disk = &part.Node{Type: 1}
		}
	}
	rows := NewRows(folderOf(2))
	rows.Take(calm("d", directory))
	rows.Take(calm("d/a", nil))
	rows.Take(calm("e", func(row *join.Row) {
		directory(row)
		row.At[0].Disk = nil
	}))
	rows.Take(calm("e/a", nil))
	if world := rows.World(); len(world.Names) != 2 || !rows.Calm["e/a"] {
		t.Errorf("%+v", world.Names)
	}
}

var unknowns = []struct {
	why    Why
	change func(*join.Folder)
}{
	{Absent, func(folder *join.Folder) {
		folder.Members[0].About.Sharing = append([]part.Sharing{{Device: id(7)}}, folder.Members[0].About.Sharing...)
	}},
	{Absent, func(folder *join.Folder) {
		folder.Members[1].About.Sharing = append(folder.Members[1].About.Sharing, part.Sharing{Device: id(7)})
	}},
	{Unlinked, func(folder *join.Folder) { folder.Members[0].About.Sharing = nil }},
	{OverWire, func(folder *join.Folder) {
		folder.Members[0].Head.Wire, folder.Members[0].About.Options = &part.Wire{}, nil
	}},
	{Untried, func(folder *join.Folder) { folder.Members[0].Head.Runs = "v1.27.0" }},
	{Untold, func(folder *join.Folder) { folder.Members[0].About.Options = nil }},
	{Paused, func(folder *join.Folder) { folder.Members[0].About.Paused = true }},
	{Paused, func(folder *join.Folder) { folder.Members[0].About.PausedDevices = []string{id(1)} }},
	{Attributes, func(folder *join.Folder) { folder.Members[0].About.ScansAttributes = true }},
	{Writers, func(folder *join.Folder) { folder.Members[0].About.Writers = []string{"folder x"} }},
	{OtherIndex, func(folder *join.Folder) { folder.Members[0].About.Views[0].IndexID = 77 }},
	{OtherIndex, func(folder *join.Folder) { folder.Members[1].About.Views[0].IndexID = 77 }},
	{OtherIndex, func(folder *join.Folder) { folder.Members[0].Head.ToRepair = true }},
	{Untold, func(folder *join.Folder) { folder.Members[0].Head.Folders[0].Kind = "receive-encrypted" }},
	{Asked, func(folder *join.Folder) { folder.Members[0].Head.Names = choice.Names{Prefix: "a"} }},
}

// Where something of a folder isn't known, nothing of it is foretold, and the names are counted.
func TestWhatIsNotKnownOfAFolder(t *testing.T) {
	for _, unknown := range unknowns {
		folder := folderOf(2)
		unknown.change(folder)
		rows := NewRows(folder)
		rows.Take(calm("a", restless[1].change))
		rows.Take(calm("b", nil))
		if len(rows.World().Names) != 0 || len(rows.All) != 1 || rows.All[0].Why != unknown.why || rows.Count[unknown.why] != 1 {
			t.Errorf("%s: %+v, %v, %d names", unknown.why, rows.All, rows.Count, len(rows.World().Names))
		}
	}
}

var unknownNames = []struct {
	why    Why
	change func(*join.Row)
}{
	{"", func(row *join.Row) { row.At[1].Disk = nil }},
	{Damaged, func(row *join.Row) { row.At[1].Disk.Lost = "a bad sector" }},
	{Damaged, func(row *join.Row) { row.At[1].Disk.Unread, row.At[0].Disk = 7, nil }},
	{Moving, func(row *join.Row) { row.At[1].Receiving, row.At[0].Disk = ".syncthing.a.tmp", nil }},
	{Moving, func(row *join.Row) { row.At[1].Moved, row.At[1].Views = []string{"record"}, nil }},
	{NeverTold, func(row *join.Row) { row.At[1].Own.Version = [][2]uint64{{1, 2}} }},
	{NeverTold, func(row *join.Row) { row.At[1].Own.Invalid = true }},
}

// Where something of a name isn't known, nothing is foretold of it.
func TestWhatIsNotKnownOfAName(t *testing.T) {
	for _, unknown := range unknownNames {
		rows := NewRows(folderOf(2))
		rows.Take(calm("a", unknown.change))
		if len(rows.World().Names) != 1 || rows.Unknown["a"] != unknown.why {
			t.Errorf("%q: %v, %d names", unknown.why, rows.Unknown, len(rows.World().Names))
		}
	}
}

// The device whose change may never be told is known. Of what it marks as invalid nobody can make it tell more.
func TestWhoNeverTells(t *testing.T) {
	for at, silent := range map[int]forecast.Places{len(unknownNames) - 2: 1 << 1, len(unknownNames) - 1: 0} {
		rows := NewRows(folderOf(2))
		rows.Take(calm("a", unknownNames[at].change))
		if rows.Unknown["a"] != NeverTold || rows.Places[NeverTold] != silent {
			t.Errorf("%d: %v, %v", at, rows.Unknown, rows.Places)
		}
	}
}

// What a scan does with a name that isn't in Unicode's form NFC isn't foretold; one at rest isn't told.
func TestAnOddNameIsNotKnown(t *testing.T) {
	const odd = "mu\u0308ll"
	for why, change := range map[Why]func(*join.Row){OddName: func(row *join.Row) { row.At[1].Own, row.At[0] = nil, nil }, "": nil} {
		rows := NewRows(folderOf(2))
		rows.Take(calm(odd, change))
		if rows.Unknown[odd] != why {
			t.Errorf("%q: %v", why, rows.Unknown)
		}
	}
}

// A name that is left out is counted, and what is below it isn't known.
func TestWhatIsLeftOut(t *testing.T) {
	rows := NewRows(folderOf(2))
	rows.Take(calm("d", func(row *join.Row) { row.At[1].Out = []part.LeftOut{{Kind: part.Unreadable, Why: "it can't be read"}} }))
	rows.Take(calm("d/a", func(row *join.Row) { row.At[1].Disk = nil }))
	rows.Take(calm("x", func(row *join.Row) {
		row.At[0], row.At[1] = nil, &part.Name{Disk: row.At[1].Disk, Out: []part.LeftOut{{Kind: part.Ignored, Why: "it is ignored"}}}
	}))
	if rows.Count[LeftOut] != 2 || len(rows.World().Names) != 0 {
		t.Errorf("%v, %d names", rows.Count, len(rows.World().Names))
	}
}

// What is left out below a directory that may go makes that unknown, whatever its name is; and names of any form come to an end.
func TestWhatIsLeftOutBelow(t *testing.T) {
	for _, name := range []string{"e/a", "e//a", "e/a/", "/", "//x", "."} {
		rows := NewRows(folderOf(2))
		rows.Take(calm("e", func(row *join.Row) { row.At[0].Disk = nil }))
		rows.Take(calm(name, func(row *join.Row) { row.At[1].Out = []part.LeftOut{{Kind: part.OddName, Why: "it is odd"}} }))
		if why := rows.Unknown["e"]; (why == LeftOut) != (name[0] == 'e') || len(rows.World().Names) != 1 || rows.Count[LeftOut] != 1 {
			t.Errorf("%s: %q, %v", name, why, rows.Count)
		}
	}
}

// The names of a large folder that aren't kept are counted.
func TestTooManyNames(t *testing.T) {
	for _, over := range []int{0, 1, NewRows(folderOf(2)).cells() - 1} {
		rows := NewRows(folderOf(2))
		rows.room = 2*rows.cells() + over
		for _, name := range []string{"a", "b", "c"} {
			rows.Take(calm(name, restless[1].change))
		}
		if rows.Count[TooMany] != 1 || len(rows.World().Names) != 2 {
			t.Errorf("%d cells more: %v, %d names", over, rows.Count, len(rows.World().Names))
		}
	}
}

// A name with as many copies as a device keeps, or almost, isn't foretold.
func TestManyCopies(t *testing.T) {
	for count, is := range map[int]bool{8: false, 9: true} {
		rows := NewRows(folderOf(2))
		for place := 0; place < count; place++ {
			rows.Take(calm("a.sync-conflict-20261128-23000"+string(rune('0'+place))+"-AAAAAAA.txt", nil))
		}
		rows.Take(calm("a.txt", restless[1].change))
		if rows.World(); (rows.Unknown["a.txt"] == Copies) != is {
			t.Errorf("%d copies: %v", count, rows.Unknown)
		}
	}
}

// A device that keeps no copies, or all of them, drops none unforeseen but by its number.
func TestHowManyCopiesAreKept(t *testing.T) {
	for most, is := range map[int]bool{-1: false, 0: true, 2: true, 3: false} {
		folder := folderOf(2)
		for _, member := range folder.Members {
			member.Head.Folders[0].Options = &part.Options{MaxConflicts: most}
		}
		rows := NewRows(folder)
		rows.Take(calm("a.sync-conflict-20261128-230000-AAAAAAA.txt", nil))
		rows.Take(calm("a.txt", restless[1].change))
		rows.Take(calm("b.txt", restless[1].change))
		if rows.World(); (rows.Unknown["a.txt"] == Copies) != is || rows.Unknown["b.txt"] != "" {
			t.Errorf("%d are kept: %v", most, rows.Unknown)
		}
	}
}

// A world has the options that parts tell.
func TestOptions(t *testing.T) {
	folder := folderOf(2)
	folder.Members[0].Head.Folders[0].Options = &part.Options{MaxConflicts: 3, IgnoresDeletions: true}
	devices := NewRows(folder).World().Devices
	if first, other := devices[0], devices[1]; first.MaxConflicts != 3 || !first.IgnoreDelete || other.MaxConflicts != 10 || other.IgnoreDelete {
		t.Errorf("%+v", devices)
	}
}

// Devices of which one shares the folder with all others, and these with that one alone, are foretold. What the others know of each other from before
// counts for nothing.
func TestAHub(t *testing.T) {
	for hub := 0; hub < 3; hub++ {
		folder, row := folderOf(3), &join.Row{Name: "a"}
		for place, member := range folder.Members {
			if place != hub {
				member.About.Sharing = []part.Sharing{{Device: id(hub)}}
			}
			at := calm("a", nil).At[0]
			at.Views = nil
			for view, of := range member.About.Views {
				known := told(nil)
				if place != hub && of.Device != id(hub) {
					known.Version = [][2]uint64{{1, 9}}
				}
				at.Views = append(at.Views, part.Seen{View: view, Record: known})
			}
			row.At = append(row.At, at)
		}
		rows := NewRows(folder)
		for place, device := range rows.World().Devices {
			if apart := forecast.Places(7 &^ (1 << hub) &^ (1 << place)); len(rows.All) > 0 || place != hub && device.Apart != apart || place == hub && device.Apart != 0 {
				t.Errorf("hub %d: %+v, %+v", hub, rows.All, device)
			}
		}
		rows.Take(row)
		if world := rows.World(); len(world.Names) != 0 {
			t.Errorf("hub %d: %+v isn't at rest", hub, world.Names)
		}
	}
}

// A name that all who have it ignore, and no index has, is none of the folder's. One that some index has is left out.
func TestWhatIsOutside(t *testing.T) {
	for why, row := range map[string]struct {
		change func(row *join.Row)
		is     bool
	}{
		"ignored by all":      {func(*join.Row) {}, true},
		"one lacks it":        {func(row *join.Row) { row.At[0] = nil }, true},
		"one records it":      {func(row *join.Row) { row.At[1].Own = told(nil) }, false},
		"one has heard of it": {func(row *join.Row) { row.At[1].Views = []part.Seen{{Record: told(nil)}} }, false},
		"one takes it soon":   {func(row *join.Row) { row.At[1].Out[0].Why = part.WhyIgnoredBefore }, false},
		"unreadable for one":  {func(row *join.Row) { row.At[1].Out = []part.LeftOut{{Kind: part.Unreadable}} }, false},
	} {
		ignored := func() *part.Name { return &part.Name{Name: "a", Out: []part.LeftOut{{Kind: part.Ignored}}} }
		taken, rows := &join.Row{Name: "a", At: []*part.Name{ignored(), ignored()}}, NewRows(folderOf(2))
		row.change(taken)
		if rows.Take(taken); isOutside(taken) != row.is || (rows.Count[LeftOut] == 0) != row.is || len(rows.World().Names) != 0 {
			t.Errorf("%s: %v", why, rows.Count)
		}
	}
}
