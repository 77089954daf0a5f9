package part

import (
	"errors"
	"fmt"
	"io"
	"math"
	"reflect"
	"strings"
	"testing"
	"time"

	"github.com/syncthing/syncthing/lib/protocol"
	"syncthing-audit/choice"
)

// What is written is read again, each field of it, at each limit that a part may reach.
func TestWhatAPartMayHave(t *testing.T) {
	for why, change := range map[string]func(*aWhole){
		"all":                        func(*aWhole) {},
		"a first look":               looking(lookID),
		"the greatest sequence":      func(w *aWhole) { w.name(1).Own.Sequence = 9 },
		"the last nanosecond":        func(w *aWhole) { w.name(1).Own.ModifiedNs, w.name(1).Disk.ModifiedNs = 999999999, 999999999 },
		"the greatest counter":       func(w *aWhole) { w.name(1).Own.Version[1][1] = math.MaxInt64 },
		"the greatest block":         func(w *aWhole) { w.name(4).Own.Local = [][2]uint64{{9, 1}} },
		"a file that is empty":       func(w *aWhole) { emptied(w, protocol.MinBlockSize) },
		"a block as long as any":     func(w *aWhole) { emptied(w, math.MaxInt32) },
		"a window of 68 years":       func(w *aWhole) { w.head.Folders[0].TimeWindow = math.MaxInt32 },
		"a view of nothing yet":      func(w *aWhole) { w.head.Folders[0].Views = append(w.head.Folders[0].Views, View{Device: fourthDevice}) },
		"a count":                    func(w *aWhole) { w.head.Folders[0].Indexed = 8 },
		"what can't be read of it":   func(w *aWhole) { w.name(1).Disk.Unread = w.name(1).Disk.Size },
		"all blocks differ":          func(w *aWhole) { w.name(1).Disk.Differ = &Differ{Count: 3, Ranges: [][2]int64{{0, 2}}} },
		"more blocks than are told":  manyDiffer,
		"a name that isn't UTF-8":    func(w *aWhole) { w.name(5).Name = "\xff" },
		"an odd name that is empty":  func(w *aWhole) { w.lines[1].Name = &Name{Out: []LeftOut{{Kind: OddName, Why: "x"}}} },
		"a disk of what is left out": func(w *aWhole) { w.name(5).Out, w.name(5).Disk = w.name(5).Out[:1], &Node{Size: 5} },
		"a symlink without a target": func(w *aWhole) { w.name(5).Disk = &Node{Type: symlink} },
		"a name of two looks": func(w *aWhole) {
			looking(lookID)(w)
			w.lines[5].Name = &Name{Name: "e", Moved: []string{MovedRecord, MovedViews, MovedDisk, MovedReceiving, MovedUnscanned}}
			w.name(2).Receiving, w.name(2).Disk.Stamp = "x", "y"
		},
		"the last folder has nothing": func(w *aWhole) { w.lines[6].End.ToIgnore = 3 },
		"as many devices as there may be": func(w *aWhole) {
			w.head.Folders[0].Writers = make([]string, MostPeers)
			w.head.Others[0].Devices = manyDevices(MostPeers)
		},
	} {
		whole := aPart()
		change(whole)
		read, lines, err := readAll(whole.written(t))
		if err != nil || !reflect.DeepEqual(read.Head(), whole.head) || !areOne(lines, whole.lines) {
			t.Errorf("%s: %v\n%+v", why, err, lines)
		}
	}
}

func emptied(w *aWhole, block int64) {
	name := w.name(1)
	content := Content{BlockSize: block}
	name.Own.Content, name.Views[0].Record.Content, name.Views[1].Record.Content = &content, &content, &content
	name.Disk.Size, name.Disk.Contents, name.Disk.Differ = 0, []Content{content}, nil
}

func manyDiffer(w *aWhole) {
	content := Content{Size: 1000 * protocol.MinBlockSize, BlockSize: protocol.MinBlockSize}
	w.name(1).Disk.Size, w.name(1).Disk.Contents = content.Size, []Content{content}
	w.name(1).Disk.Differ = &Differ{Count: 900}
	for at := int64(0); at < MostRanges; at++ {
		w.name(1).Disk.Differ.Ranges = append(w.name(1).Disk.Differ.Ranges, [2]int64{3 * at, 3*at + 1})
	}
}

func manyDevices(count int) []string {
	var all []string
	for len(all) < count {
		all = append(all, otherDevice)
	}
	return all
}

// Each rule of a part is broken by itself, and told: what is wrong, in which line and at which name.
func TestEachRuleOfAPart(t *testing.T) {
	const contentOrNoFile = "it has a content and is no file, or the other way round"
	for _, row := range []struct {
		told   string
		change func(w *aWhole)
	}{
		{`the part's device "x" is no device id`, func(w *aWhole) { w.head.Device = "x" }},
		{"the part's look is none", looking("")},
		{"the part's look is none", func(w *aWhole) { looking(lookID)(w); w.head.Look.Home = "" }},
		{"the part's look is none", func(w *aWhole) { looking(lookID)(w); w.head.Look.After = map[string]string{thisDevice: lookID} }},
		{"the part's look has an id that is none", looking(lookID[2:])},
		{"the part's look has an id that is none", looking("x" + lookID[1:])},
		{"the part's look is one of two, and says when both had ended", func(w *aWhole) { looking(lookID)(w); w.head.Look.Ended = time.Unix(2, 0) }},
		{"the part's names are none: it says that it has slice 8 of 7", func(w *aWhole) { w.head.Version, w.head.Names = 3, choice.Names{Slice: 8, Slices: 7} }},
		{`the part's folder "docs" isn't in its place`, func(w *aWhole) { w.head.Folders[1].ID = "docs" }},
		{`the part's folder "a" isn't in its place`, func(w *aWhole) { w.head.Folders[1].ID = "a" }},
		{`the part's folder "pics": its kind is "x"`, func(w *aWhole) { w.head.Folders[1].Kind = "x" }},
		{`the part's folder "pics": its index has no id, or a greatest sequence or a count below 0`, func(w *aWhole) { w.head.Folders[1].IndexID = 0 }},
		{`the part's folder "pics": its index has no id, or a greatest sequence or a count below 0`, func(w *aWhole) { w.head.Folders[1].Max = -1 }},
		{`the part's folder "pics": its index has no id, or a greatest sequence or a count below 0`, func(w *aWhole) { w.head.Folders[1].Indexed = -1 }},
		{`the part's folder "pics": its window for times is none`, func(w *aWhole) { w.head.Folders[1].TimeWindow = -1 }},
		{`the part's folder "pics": its window for times is none`, func(w *aWhole) { w.head.Folders[1].TimeWindow = math.MaxInt32 + 1 }},
		{`the part's folder "docs": its view of "x" is none`, func(w *aWhole) { w.head.Folders[0].Views[1].Device = "x" }},
		{`the part's folder "docs": its view of "` + otherDevice + `" is none`, func(w *aWhole) { w.head.Folders[0].Views[1].Device = otherDevice }},
		{`the part's folder "docs": its view of "` + thirdDevice + `" is none`, func(w *aWhole) { w.head.Folders[0].Views[1].Max = -1 }},
		{`the part's folder "docs": its view of "` + thirdDevice + `" is none`, func(w *aWhole) { w.head.Folders[0].Views[1].Heard = -1 }},
		{`the part's folder "docs": its view of "` + thirdDevice + `" is none`, func(w *aWhole) { w.head.Folders[0].Views[1].Heard = 1 }},
		{`the part's folder "docs": it is shared with "x", which is no device id`, func(w *aWhole) { w.head.Folders[0].Sharing[0].Device = "x" }},
		{`the part says that it hasn't the folder "docs", which isn't in its place`, func(w *aWhole) { w.head.Others[1].ID = "docs" }},
		{`the part says that it hasn't the folder "a", which isn't in its place`, func(w *aWhole) { w.head.Others[1].ID = "a" }},
		{`the part says that folder "a" is shared with "x", which is no device id`, func(w *aWhole) { w.head.Others[0].Devices[0] = "x" }},

		{`line 2 of the part: no folder has begun`, func(w *aWhole) { w.lines = w.lines[1:] }},
		{`line 2 of the part: folder "pics" isn't in its place`, func(w *aWhole) { w.lines[0].Begin.Folder = "pics" }},
		{`line 3 of the part: folder "pics" isn't in its place`, func(w *aWhole) { w.lines[1] = w.lines[7] }},
		{`line 11 of the part: it stands behind the end`, func(w *aWhole) { w.lines = append(w.lines, w.lines[7]) }},
		{`line 4 of the part: the name a isn't in its place`, func(w *aWhole) { w.name(2).Name = "a" }},
		{`line 4 of the part: the name ` + "''" + ` isn't in its place`, func(w *aWhole) { w.name(2).Name = "" }},
		{`line 8 of the part: folder "pics" ends with 5 names, and 5 stand here`, func(w *aWhole) { w.lines[6].End.Folder = "pics" }},
		{`line 8 of the part: folder "docs" ends with 4 names, and 5 stand here`, func(w *aWhole) { w.lines[6].End.Names = 4 }},
		{`line 8 of the part: folder "docs" isn't in its place`, func(w *aWhole) { w.lines[6].End.Last = true }},
		{`line 10 of the part: folder "pics" isn't in its place`, func(w *aWhole) { w.lines[8].End.Last = false }},
		{`line 8 of the part: folder "docs" ends with a count of names below 0`, func(w *aWhole) { w.lines[6].End.ToIgnore = -1 }},
		{`line 8 of the part: folder "docs" ends with a count of names below 0`, func(w *aWhole) { w.lines[6].End.Linked.Bytes = -1 }},
		{"the part ends in the middle: it was cut off", func(w *aWhole) { w.lines = w.lines[:6] }},
		{"the part ends in the middle: it was cut off", func(w *aWhole) { w.lines = w.lines[:7] }},

		{"line 3 of the part: a: it is being received, and the part is of no look at a running device", func(w *aWhole) { w.name(1).Receiving = "x" }},
		{"line 3 of the part: a: it has a stamp, and the part is of no look at a running device", func(w *aWhole) { w.name(1).Disk.Stamp = "x" }},
		{"line 6 of the part: d: it moved, and the part is of no look at a running device", func(w *aWhole) { w.name(4).Moved = []string{MovedDisk} }},
		{`line 6 of the part: d moved as "x"`, func(w *aWhole) {
			looking(lookID)(w)
			w.lines[4].Name = &Name{Name: "d", Moved: []string{MovedDisk, "x"}}
		}},
		{"line 6 of the part: d moved, and more is told of it", func(w *aWhole) { moved(w).Own = w.name(1).Own }},
		{"line 6 of the part: d moved, and more is told of it", func(w *aWhole) { moved(w).Views = w.name(1).Views }},
		{"line 6 of the part: d moved, and more is told of it", func(w *aWhole) { moved(w).Disk = w.name(1).Disk }},
		{"line 6 of the part: d moved, and more is told of it", func(w *aWhole) { moved(w).Out = w.name(5).Out }},
		{"line 6 of the part: d moved, and more is told of it", func(w *aWhole) { moved(w).Receiving = "x" }},

		{"line 6 of the part: d/: its name has a part that is empty, '.' or '..'", func(w *aWhole) { w.name(4).Name = "d/" }},
		{"line 3 of the part: the own record of a: its sequence 0 isn't 1 to 9", func(w *aWhole) { w.name(1).Own.Sequence = 0 }},
		{"line 3 of the part: the own record of a: its sequence 10 isn't 1 to 9", func(w *aWhole) { w.name(1).Own.Sequence = 10 }},
		{"line 3 of the part: a view of a: its sequence 9 isn't 1 to 8", func(w *aWhole) { w.name(1).Views[1].Record.Sequence = 9 }},
		{"line 3 of the part: a view of a: its sequence 8 isn't 1 to 7", func(w *aWhole) { w.name(1).Views[0].Record.Sequence = 8 }},
		{"line 3 of the part: the views of a aren't in their places", func(w *aWhole) { w.name(1).Views[1].View = 0 }},
		{"line 3 of the part: the views of a aren't in their places", func(w *aWhole) { w.name(1).Views[1].View = 2 }},
		{"line 3 of the part: the views of a aren't in their places", func(w *aWhole) { w.name(1).Views[0].View = -1 }},
		{"line 3 of the part: the own record of a: its type is 2", func(w *aWhole) { w.name(1).Own.Type = 2 }},
		{"line 3 of the part: the own record of a: " + contentOrNoFile, func(w *aWhole) { w.name(1).Own.Content = nil }},
		{"line 6 of the part: the own record of d: " + contentOrNoFile, func(w *aWhole) { w.name(4).Own.Content = w.name(1).Own.Content }},
		{"line 4 of the part: the own record of b: " + contentOrNoFile, func(w *aWhole) { w.name(2).Own.Content = w.name(1).Own.Content }},
		{"line 5 of the part: the own record of c: its target hasn't 1 to 1024 bytes", func(w *aWhole) { w.name(3).Own.Target = "" }},
		{"line 4 of the part: the own record of b: it has a target and is no symlink", func(w *aWhole) { w.name(2).Own.Target = "x" }},
		{"line 5 of the part: the own record of c: it has a target and is no symlink", func(w *aWhole) { w.name(3).Own.Deleted = true }},
		{"line 3 of the part: the own record of a: its nanoseconds are over 999999999", func(w *aWhole) { w.name(1).Own.ModifiedNs = -1 }},
		{"line 3 of the part: the own record of a: its nanoseconds are over 999999999", func(w *aWhole) { w.name(1).Own.ModifiedNs = 1000000000 }},
		{"line 3 of the part: the own record of a: it doesn't say which device changed it", func(w *aWhole) { w.name(1).Own.ModifiedBy = 0 }},
		{"line 3 of the part: the own record of a: its content is none", func(w *aWhole) { recut(w, -1, protocol.MinBlockSize) }},
		{"line 3 of the part: the own record of a: its content is none", func(w *aWhole) { recut(w, 1, protocol.MinBlockSize-1) }},
		{"line 3 of the part: the own record of a: its content is none", func(w *aWhole) { recut(w, 1, math.MaxInt32+1) }},
		{"line 6 of the part: the own record of d: its version is none", func(w *aWhole) { w.name(4).Own.Local = [][2]uint64{{0, 1}} }},
		{"line 6 of the part: the own record of d: its version is none", func(w *aWhole) { w.name(4).Own.Version = [][2]uint64{{1, 0}} }},
		{"line 6 of the part: the own record of d: its version is none", func(w *aWhole) { w.name(4).Own.Version = [][2]uint64{{1, math.MaxInt64 + 1}} }},
		{"line 6 of the part: the own record of d: its version is none", func(w *aWhole) { w.name(4).Own.Version = [][2]uint64{{1, 1}, {1, 2}} }},
		{"line 6 of the part: the own record of d: its version is none", func(w *aWhole) { w.name(4).Own.Version = [][2]uint64{{1, 1}, {3, 1}, {2, 2}} }},
		{`line 7 of the part: e is left out as "x"`, func(w *aWhole) { w.name(5).Out[0].Kind = "x" }},
		{`line 7 of the part: e is left out as "special"`, func(w *aWhole) { w.name(5).Out[1].Why = "" }},
		{`line 7 of the part: e is left out as "special"`, func(w *aWhole) { w.name(5).Out[1].Bytes = -1 }},

		{"line 3 of the part: what stands on the disk at a: its type is 3", func(w *aWhole) { w.name(1).Disk.Type = 3 }},
		{"line 4 of the part: what stands on the disk at b: its time or size is none", func(w *aWhole) { w.name(2).Disk.ModifiedNs = -1 }},
		{"line 4 of the part: what stands on the disk at b: its time or size is none", func(w *aWhole) { w.name(2).Disk.ModifiedNs = 1000000000 }},
		{"line 4 of the part: what stands on the disk at b: its time or size is none", func(w *aWhole) { w.name(2).Disk.Size = -1 }},
		{"line 4 of the part: what stands on the disk at b: its time or size is none", func(w *aWhole) { w.name(2).Disk.Unread = -1 }},
		{"line 4 of the part: what stands on the disk at b: its time or size is none", func(w *aWhole) { w.name(2).Disk.Unread = 1 }},
		{"line 5 of the part: what stands on the disk at c: its target hasn't 1 to 1024 bytes", func(w *aWhole) { w.name(3).Disk.Target = "" }},
		{"line 4 of the part: what stands on the disk at b: it has a target and is no symlink", func(w *aWhole) { w.name(2).Disk.Target = "x" }},
		{"line 3 of the part: what stands on the disk at a: " + contentOrNoFile, func(w *aWhole) { w.name(1).Disk.Contents, w.name(1).Disk.Differ = nil, nil }},
		{"line 4 of the part: what stands on the disk at b: " + contentOrNoFile, func(w *aWhole) { w.name(2).Disk.Contents = w.name(1).Disk.Contents }},
		{"line 3 of the part: what stands on the disk at a: its content is none", func(w *aWhole) { w.name(1).Disk.Contents[0].Size++ }},
		{"line 3 of the part: what stands on the disk at a: its content is none", func(w *aWhole) { w.name(1).Disk.Contents[0].BlockSize = 1 }},
		{"line 3 of the part: what stands on the disk at a: its blocks differ, and there is no file with a record", func(w *aWhole) { w.name(1).Own, w.name(1).Views = nil, nil }},
		{"line 4 of the part: what stands on the disk at b: its blocks differ, and there is no file with a record", func(w *aWhole) { w.name(2).Disk.Differ = w.name(1).Disk.Differ }},
		{"line 7 of the part: what stands on the disk at e: its blocks differ, and there is no file with a record", func(w *aWhole) {
			w.name(5).Own, w.name(5).Disk = w.name(1).Own, &Node{Size: 5, Differ: w.name(1).Disk.Differ}
		}},
		{"line 3 of the part: what stands on the disk at a: its blocks that differ aren't in their places", blocksThatDiffer(2, [2]int64{1, 1}, [2]int64{1, 1})},
		{"line 3 of the part: what stands on the disk at a: its blocks that differ aren't in their places", blocksThatDiffer(2, [2]int64{-1, 1})},
		{"line 3 of the part: what stands on the disk at a: its blocks that differ aren't in their places", blocksThatDiffer(2, [2]int64{2, 1})},
		{"line 3 of the part: what stands on the disk at a: its blocks that differ aren't in their places", blocksThatDiffer(2, [2]int64{1, 3})},
		{"line 3 of the part: what stands on the disk at a: 1 of its blocks differ, and the list of them is another one", blocksThatDiffer(1)},
		{"line 3 of the part: what stands on the disk at a: 1 of its blocks differ, and the list of them is another one", blocksThatDiffer(1, [2]int64{0, 1})},
		{"line 3 of the part: what stands on the disk at a: 3 of its blocks differ, and the list of them is another one", blocksThatDiffer(3, [2]int64{0, 1})},
	} {
		whole := aPart()
		row.change(whole)
		for _, data := range [][]byte{whole.written(t), whole.inLines(t)} {
			if _, _, err := readAll(data); err == nil || err.Error() != row.told {
				t.Errorf("%v,\nnot %s", err, row.told)
			}
		}
	}
	for _, odd := range []Line{{}, {Begin: &Begin{"docs"}, Name: aPart().name(1)}} {
		whole := aPart()
		whole.lines[0] = odd
		if _, _, err := readAll(whole.inLines(t)); err == nil || err.Error() != "line 2 of the part: it is no begin, name or end" {
			t.Error(err)
		}
	}
}

// What an observer can't have seen is told with the name, and so is a mark that is none.
func TestEachRuleOfAPartOverTheWire(t *testing.T) {
	for _, row := range []struct {
		told   string
		change func(w *aWhole)
	}{
		{"", func(*aWhole) {}},
		{"line 3 of the part: a: it has records in views, which an observer isn't told", func(w *aWhole) { w.name(1).Views = aPart().name(1).Views }},
		{"line 3 of the part: a: more is told of its disk than an observer sees", func(w *aWhole) { w.name(1).Disk.Permissions = 1 }},
		{"the part's index went back from a sequence below 0", func(w *aWhole) { w.head.Wire.WentBackFrom = -1 }},
		{`the part's observer "x" is none`, func(w *aWhole) { w.head.Wire.Observer = "x" }},
		{`the part's observer "` + thisDevice + `" is none`, func(w *aWhole) { w.head.Wire.Observer = thisDevice }},
		{"what isn't seen in the part isn't what this program knows of: use the version that made it", func(w *aWhole) { w.head.Wire.Unseen = append(w.head.Wire.Unseen, "x") }},
		{"the part is made over the wire, and its looks are none", func(w *aWhole) { w.head.Look.Ended = time.Unix(0, 0) }},
		{"the part is made over the wire, and its looks are none", func(w *aWhole) { w.head.Look = nil }},
	} {
		whole := aPart()
		whole.head.Version, whole.head.Wire = VersionOfWire, NewWire(otherDevice, false)
		whole.head.Look = &Look{Home: "over the wire", ID: lookID, After: map[string]string{thisDevice: lookID}, At: time.Unix(1, 0), Ended: time.Unix(2, 0)}
		whole.lines = []Line{whole.lines[0], whole.lines[1], {End: &End{Folder: "docs", Names: 1, Max: 9}}, whole.lines[7], whole.lines[8]}
		whole.name(1).Views = nil
		row.change(whole)
		if _, _, err := readAll(whole.written(t)); (err == nil) != (row.told == "") || err != nil && err.Error() != row.told {
			t.Errorf("%v,\nnot %s", err, row.told)
		}
	}
	for _, wire := range []*Wire{nil, NewWire(otherDevice, false), NewWire(otherDevice, true)} {
		if head := (&Head{Wire: wire}); head.IsOverWire() != (wire != nil) || head.IsOfRecords() != (wire != nil && len(wire.Unseen) > len(AlwaysUnseen)) {
			t.Errorf("%v: %v, %v", wire, head.IsOverWire(), head.IsOfRecords())
		}
	}
}

// moved makes the part one of a look, in which the fourth name moved.
func moved(w *aWhole) *Name {
	looking(lookID)(w)
	w.lines[4].Name = &Name{Name: "d", Moved: []string{MovedDisk}}
	return w.lines[4].Name
}

func recut(w *aWhole, size, block int64) {
	w.name(1).Own.Content = &Content{Size: size, BlockSize: block}
}

func blocksThatDiffer(count int64, ranges ...[2]int64) func(*aWhole) {
	return func(w *aWhole) { w.name(1).Disk.Differ = &Differ{Count: count, Ranges: ranges} }
}

// A head with more folders or devices than there may be is neither written nor read.
func TestAHeadThatIsTooLarge(t *testing.T) {
	for told, change := range map[string]func(head *Head){
		"it is of 10001 folders, and has 2 others": func(head *Head) { head.Folders = make([]Folder, mostFolders+1) },
		"it is of 2 folders, and has 10001 others": func(head *Head) { head.Others = make([]Other, mostFolders+1) },
		`folder "docs" has 1001 devices`:           func(head *Head) { head.Folders[0].Sharing = make([]Sharing, MostPeers+1) },
		`folder "pics" has 1001 devices`:           func(head *Head) { head.Folders[1].PausedDevices = make([]string, MostPeers+1) },
		`folder "z" has 1001 devices`:              func(head *Head) { head.Others[1].Devices = manyDevices(MostPeers + 1) },
	} {
		head := aPart().head
		change(head)
		_, err := NewWriter(io.Discard, head)
		if read := checkHead(head); err == nil || !strings.HasPrefix(err.Error(), "refused: "+told) || read == nil || !strings.HasPrefix(read.Error(), "the part is none: "+told) {
			t.Errorf("%v, %v", err, read)
		}
		if arranged := head.Arrange(); arranged == nil || !strings.HasPrefix(arranged.Error(), told) {
			t.Error(arranged)
		}
	}
	head := aPart().head
	head.Folders[0].Label = strings.Repeat("x", mostHeadBytes)
	if _, err := NewWriter(io.Discard, head); err == nil || !strings.HasPrefix(err.Error(), "refused: what a part says of its folders and devices takes 16777") {
		t.Error(err)
	}
}

// A folder that is asked for by its id is that one, or none.
func TestFoldersOfAHead(t *testing.T) {
	head := aPart().head
	for _, id := range []string{"", "a", "b", "docs", "e", "pics", "z", "zz"} {
		folder, other := head.Folder(id), head.Other(id)
		if (folder != nil) != (id == "docs" || id == "pics") || (other != nil) != (id == "a" || id == "z") ||
			folder != nil && folder.ID != id || other != nil && other.ID != id {
			t.Errorf("%q: %v, %v", id, folder, other)
		}
	}
	head.Folders[0], head.Folders[1] = head.Folders[1], head.Folders[0]
	head.Others[0], head.Others[1] = head.Others[1], head.Others[0]
	if err := head.Arrange(); err != nil || head.Folders[0].ID != "docs" || head.Others[0].ID != "a" {
		t.Error(err, head.Folders, head.Others)
	}
}

// A line of a folder that would be too long is refused by its writer, and one of JSON by its reader.
func TestTheLongestLine(t *testing.T) {
	writer, err := NewWriter(io.Discard, aPart().head)
	if err != nil {
		t.Fatal(err)
	}
	if err := writer.Take(Line{Begin: &Begin{strings.Repeat("x", mostLineBytes)}}); err == nil || !strings.HasPrefix(err.Error(), "refused: a line of the part would have 1048589 bytes") {
		t.Error(err)
	}
	for _, most := range []int{10, 1 << 17} {
		for length := most - 1; length <= most+1; length++ {
			read := &lines{from: newLines(strings.Repeat(" ", length-1) + "\n")}
			line, isOver := "", length > most
			err := read.read(&line, most)
			if told := fmt.Sprint(err); length > 1<<16 && isOver != strings.HasPrefix(told, "it has over ") {
				t.Errorf("%d of %d bytes: %s", length, most, told)
			}
		}
	}
}

// What is no part is told as that, and what can't be read or written is told.
func TestWhatIsNoPart(t *testing.T) {
	whole := aPart().written(t)
	for why, data := range map[string][]byte{"nothing": nil, "text": []byte("hello, this is no part at all"), "an empty one": zipped(""), "half a head": zipped(`{"version":1`),
		"no JSON": zipped("x\n"), "another JSON": zipped("[]\n")} {
		if _, _, err := readAll(data); !errors.Is(err, ErrNone) || !strings.HasPrefix(err.Error(), "this is no part: ") {
			t.Errorf("%s: %v", why, err)
		} else if isEmpty := why == "an empty one"; isEmpty != (err.Error() == "this is no part: it is empty") {
			t.Errorf("%s: %v", why, err)
		}
	}
	for end := 0; end < len(whole); end += 5 {
		if _, _, err := readAll(whole[:end]); err == nil {
			t.Errorf("a part without its last %d bytes is read", len(whole)-end)
		}
	}
	for room := 0; room < len(whole); room += 61 {
		to, err := NewWriter(&small{room}, aPart().head)
		for at := 0; err == nil && at < len(aPart().lines); at++ {
			err = to.Take(aPart().lines[at])
		}
		if err == nil {
			err = to.Close()
		}
		if err != errFull {
			t.Errorf("room for %d of %d bytes: %v", room, len(whole), err)
		}
	}
}

var errFull = errors.New("no room")

// small takes so many bytes.
type small struct{ room int }

func (s *small) Write(data []byte) (int, error) {
	if len(data) > s.room {
		return 0, errFull
	}
	s.room -= len(data)
	return len(data), nil
}
