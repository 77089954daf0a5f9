package join

import (
	"errors"
	"io"
	"math/rand"
	"reflect"
	"sort"
	"strings"
	"testing"

	"syncthing-audit/part"
)

// made is a part in memory that fails at a line, if one is chosen, and notes which folders are chosen.
type made struct {
	lines
	failsAt  int
	err      error
	isChosen func(id string) bool
}

func (m *made) Next() (part.Line, error) {
	if m.failsAt == 0 {
		return part.Line{}, m.err
	}
	m.failsAt--
	return m.lines.Next()
}

func (m *made) Choose(isChosen func(id string) bool) { m.isChosen = isChosen }

// madeUp gives the part of one of three devices with three folders, of which 'docs' has these names.
func madeUp(number byte, names []*part.Name, end part.End) *Device {
	window := 2 * int64(number-1) // of the first device none
	folder := part.Folder{ID: "docs", Label: "Documents", Kind: "send-receive", IndexID: uint64(number), Max: 9, Directory: deviceID(number), TimeWindow: window}
	for other := byte(1); other <= 3; other++ {
		if other != number {
			folder.Sharing = append(folder.Sharing, part.Sharing{Device: deviceID(other)})
		}
	}
	before, behind := folder, folder
	before.ID, behind.ID = "a", "z"
	all := []part.Line{{Begin: &part.Begin{Folder: "a"}}, {Name: &part.Name{Name: "of a"}}, {End: &part.End{Folder: "a", Max: 9, Bytes: 1000}},
		{Begin: &part.Begin{Folder: "docs"}}}
	for _, name := range names {
		all = append(all, part.Line{Name: name})
	}
	all = append(all, part.Line{End: &end}, part.Line{Begin: &part.Begin{Folder: "z"}}, part.Line{End: &part.End{Folder: "z", Max: 9, Last: true}})
	head := &part.Head{Device: deviceID(number), Name: "laptop", Folders: []part.Folder{before, folder, behind}}
	return NewDevice(&made{lines: lines{head, all}, failsAt: len(all)*2 + 9}, "part-"+string('0'+rune(number)))
}

// randomNames gives names that rise, each with a file whose time is the recorded one, or near it, or not.
func randomNames(random *rand.Rand) []*part.Name {
	var names []*part.Name
	for _, name := range []part.Bytes{"a", "a/b", "a0", "b", "z"} {
		if random.Intn(3) == 0 {
			continue
		}
		own := record(3, 0)
		at := &part.Name{Name: name, Own: own, Disk: &part.Node{Size: 3, ModifiedS: own.ModifiedS + int64(random.Intn(5))}}
		switch random.Intn(6) {
		case 0:
			at.Out = []part.LeftOut{{Kind: part.Unreadable}}
		case 1:
			at.Moved = []string{part.MovedDisk}
		}
		names = append(names, at)
	}
	return names
}

// copies gives copies of names, since times are taken in their places.
func copies(names []*part.Name) []*part.Name {
	var all []*part.Name
	for _, name := range names {
		disk, copied := *name.Disk, *name
		copied.Disk = &disk
		all = append(all, &copied)
	}
	return all
}

// directRows gives the rows of these parts plainly, and how many times are taken as recorded at each member.
func directRows(parts [][]*part.Name) ([]*Row, []int64) {
	byName, near := map[string]*Row{}, make([]int64, len(parts))
	for place, names := range parts {
		for _, name := range copies(names) {
			row := byName[string(name.Name)]
			if row == nil {
				row = &Row{Name: string(name.Name), At: make([]*part.Name, len(parts))}
				byName[row.Name] = row
			}
			row.At[place] = name
			apart := name.Disk.ModifiedS - name.Own.ModifiedS
			if apart > 0 && apart < 2*int64(place) && name.Out == nil && name.Moved == nil {
				name.Disk.ModifiedS = name.Own.ModifiedS
				near[place]++
			}
		}
	}
	var rows []*Row
	for _, row := range byName {
		rows = append(rows, row)
	}
	sort.Slice(rows, func(a, b int) bool { return rows[a].Name < rows[b].Name })
	return rows, near
}

// Rows of made-up parts, and the same read name by name. Where a line fails, what was read before it is as it is else, and the failure
// says of which part it is.
func TestRowsEqualADirectReading(t *testing.T) {
	for seed := int64(0); seed < 100; seed++ {
		random := rand.New(rand.NewSource(seed))
		parts := [][]*part.Name{randomNames(random), randomNames(random), randomNames(random)}
		expected, near := directRows(parts)
		ends := []part.End{{Max: 9, Bytes: 1, ToIgnore: 3}, {Max: 9, Bytes: 10, Temporary: &part.Count{Names: 2}}, {Max: 9, Bytes: 100, Linked: &part.Count{Names: 4}}}
		devices := []*Device{}
		for place, names := range parts {
			devices = append(devices, madeUp(byte(place+1), copies(names), ends[place]))
		}
		plan, err := NewPlan(devices, nil)
		if err != nil || len(plan.Folders) != 3 {
			t.Fatal(err, plan)
		}
		failing := random.Intn(4) // none at 3
		if failing < 3 {
			stream := devices[failing].Stream.(*made)
			stream.failsAt, stream.err = random.Intn(len(parts[failing])+5), []error{io.ErrUnexpectedEOF, io.EOF}[random.Intn(2)]
		}
		folder, rows := plan.Folders[1], []*Row{}
		bytes, err := folder.Rows(func(row *Row) error { rows = append(rows, row); return nil })
		if failing < 3 {
			if err == nil || !strings.HasPrefix(err.Error(), devices[failing].From+": ") || bytes != 0 || len(rows) > len(expected) || !sameRows(rows, expected[:len(rows)]) {
				t.Fatalf("seed %d: %v, %d bytes, %d rows", seed, err, bytes, len(rows))
			}
			continue
		}
		if err != nil || bytes != 111 || !sameRows(rows, expected) {
			t.Fatalf("seed %d: %v, %d bytes, %v", seed, err, bytes, rows)
		}
		for place, member := range folder.Members {
			end := ends[place]
			if member.Near != near[place] || member.Temporary != end.Temporary || member.Linked != end.Linked || member.ToIgnore != end.ToIgnore {
				t.Fatalf("seed %d: %+v", seed, member)
			}
		}
	}
}

func sameRows(rows, expected []*Row) bool {
	return len(rows) == len(expected) && (len(rows) == 0 || reflect.DeepEqual(rows, expected))
}

// A part that isn't as its head says, or that is none, is refused in words that say which it is.
func TestAPartThatIsNotAsItsHeadSays(t *testing.T) {
	for _, row := range []struct {
		told   string
		change func(stream *made)
	}{
		{"part-1: a folder begins inside another", func(stream *made) {
			stream.left = append(stream.left[:4:4], part.Line{Begin: &part.Begin{Folder: "z"}})
		}},
		{"part-1: the part has no more folders", func(stream *made) { stream.left = stream.left[:3] }},
		{"part-1: the part has no more folders", func(stream *made) { stream.left = stream.left[:4] }},
		{"a folder's end is missing", func(stream *made) { stream.left[4] = part.Line{} }},
		{"refused: folder docs (Documents), device laptop (AAAAAAA): its index changed while it was read (sequence 9, then 8): make the part anew",
			func(stream *made) { stream.left[4].End.Max = 8 }},
	} {
		devices := []*Device{madeUp(1, nil, part.End{Max: 9}), madeUp(2, nil, part.End{Max: 9}), madeUp(3, nil, part.End{Max: 9})}
		plan, err := NewPlan(devices, []string{"docs"})
		if err != nil {
			t.Fatal(err)
		}
		row.change(devices[0].Stream.(*made))
		if bytes, err := plan.Folders[0].Rows(func(*Row) error { return nil }); err == nil || err.Error() != row.told || bytes != 0 {
			t.Errorf("%v, not %s; %d bytes", err, row.told, bytes)
		}
	}
}

// Where nobody takes a row, reading ends with that error.
func TestRowsThatNobodyTakes(t *testing.T) {
	folder := &Folder{ID: "docs", Members: []Member{{Device: madeUp(1, randomNames(rand.New(rand.NewSource(1))), part.End{Max: 9, Bytes: 5}), About: &part.Folder{Max: 9}}}}
	failed := errors.New("no room")
	if bytes, err := folder.Rows(func(*Row) error { return failed }); err != failed || bytes != 0 {
		t.Errorf("%v, %d bytes", err, bytes)
	}
}

// The rest of a part is read to its end, and a failure there is told. Of a part only the folders that are audited are chosen, each at its devices.
func TestWhatElseAPartHas(t *testing.T) {
	devices := []*Device{madeUp(1, nil, part.End{Max: 9}), madeUp(2, nil, part.End{Max: 9}), madeUp(3, nil, part.End{Max: 9})}
	devices[2].Head.Folders = devices[2].Head.Folders[:2]
	for place := range devices[:2] {
		devices[place].Head.Folders[2].Sharing = []part.Sharing{{Device: deviceID(byte(2 - place))}}
	}
	if _, err := NewPlan(devices, []string{"docs", "z"}); err != nil {
		t.Fatal(err)
	}
	for place, device := range devices {
		isChosen := device.Stream.(*made).isChosen
		if isChosen("a") || !isChosen("docs") || isChosen("z") != (place < 2) {
			t.Errorf("device %d: a %v, docs %v, z %v", place+1, isChosen("a"), isChosen("docs"), isChosen("z"))
		}
	}
	if err := devices[0].Whole(); err != nil || len(devices[0].Stream.(*made).left) > 0 {
		t.Error(err)
	}
	devices[1].Stream.(*made).failsAt, devices[1].Stream.(*made).err = 3, errors.New("it is cut off")
	if err := devices[1].Whole(); err == nil || err.Error() != "part-2: it is cut off" {
		t.Error(err)
	}
}

func TestSizeOfARow(t *testing.T) {
	recorded := func(size int64) *part.Record { return &part.Record{Content: &part.Content{Size: size}} }
	for size, at := range map[int64][]*part.Name{
		0: {nil, {}, {Own: &part.Record{}}},
		5: {nil, {Disk: &part.Node{Size: 5}, Own: recorded(4)}, nil, {Out: []part.LeftOut{{Bytes: 3}}}},
		6: {{Disk: &part.Node{Size: 5}, Own: recorded(6)}, {Own: recorded(2)}},
		7: {{Out: []part.LeftOut{{Bytes: 1}, {Bytes: 7}, {Bytes: 2}}}, {Disk: &part.Node{Size: 6}}},
	} {
		if is := (&Row{At: at}).Size(); is != size {
			t.Errorf("%d, not %d", is, size)
		}
	}
}
