package outlook

import (
	"fmt"
	"math/rand"
	"reflect"
	"testing"

	"github.com/syncthing/syncthing/lib/protocol"
	"golang.org/x/exp/slices"
	"syncthing-audit/forecast"
	"syncthing-audit/forecast/read"
	"syncthing-audit/join"
	"syncthing-audit/part"
)

// ids are those of the devices of every folder here.
var ids = func() (made [32]string) {
	for place := range made {
		made[place] = protocol.DeviceID{7: byte(place + 1)}.String()
	}
	return made
}()

func idOf(place int) string { return ids[place] }

// countsOf gives of how many names each fate is.
func countsOf(outlook *Outlook) map[Fate]int64 {
	counts := map[Fate]int64{}
	for _, fate := range Fates {
		if count := *outlook.count(fate); count > 0 {
			counts[fate] = count
		}
	}
	return counts
}

// at gives the ids of the devices in these places.
func at(places ...int) []string {
	var made []string
	for _, place := range places {
		made = append(made, idOf(place))
	}
	return made
}

// memberOf gives the place of a device.
func memberOf(id string) int {
	return slices.Index(ids[:], id)
}

// placesOf gives the places of devices.
func placesOf(ids []string) []int {
	var made []int
	for _, id := range ids {
		made = append(made, memberOf(id))
	}
	return made
}

// folderOf gives a folder that these devices share, whose kinds these are.
func folderOf(kinds ...string) *join.Folder {
	folder := &join.Folder{ID: "docs"}
	for place, kind := range kinds {
		about := &part.Folder{ID: "docs", Kind: kind, IndexID: uint64(place + 1), Max: 9, Options: &part.Options{MaxConflicts: 10}}
		for other := range kinds {
			if other != place {
				about.Sharing = append(about.Sharing, part.Sharing{Device: idOf(other)})
				about.Views = append(about.Views, part.View{Device: idOf(other), IndexID: uint64(other + 1), Max: 9})
			}
		}
		head := &part.Head{Device: idOf(place), Runs: "v1.29.5", Folders: []part.Folder{*about}}
		folder.Members = append(folder.Members, join.Member{Device: &join.Device{Head: head, Number: head.Number()}, About: about})
	}
	return folder
}

// rows draws rows of a folder: names with records that some devices changed and others heard of, and disks on which something was changed.
type rows struct {
	random  *rand.Rand
	devices int
}

func (r *rows) content() *part.Content {
	return &part.Content{Size: 1 + int64(r.random.Intn(3)), BlockSize: protocol.MinBlockSize, Hash: part.Hash{byte(r.random.Intn(250)), byte(r.random.Intn(250))}}
}

// row draws a name.
func (r *rows) row(name string) *join.Row {
	made := &join.Row{Name: name, At: make([]*part.Name, r.devices)}
	first := part.Record{ModifiedS: 100, ModifiedBy: 1, Version: [][2]uint64{{9, 1}}, Content: r.content()}
	for member := range made.At {
		own := first
		if r.random.Intn(3) == 0 {
			own.Version = [][2]uint64{{uint64(member + 1), 5}, {9, 1}}
			if own.ModifiedS = int64(200 + r.random.Intn(3)); r.random.Intn(3) == 0 {
				own.Deleted, own.Content = true, nil
			} else {
				own.Content = r.content()
			}
		}
		own.Sequence = int64(10 + r.random.Intn(2)) // above what others have heard of
		made.At[member] = &part.Name{Name: part.Bytes(name), Own: &own, Disk: r.disk(&own)}
	}
	for member, at := range made.At {
		for view, other := 0, 0; other < r.devices; other++ {
			if other == member {
				continue
			}
			seen := first
			if r.random.Intn(2) == 0 {
				seen = *made.At[other].Own
			}
			at.Views = append(at.Views, part.Seen{View: view, Record: &seen})
			view++
		}
	}
	return made
}

// disk draws what stands on a disk beside a record: mostly what it says.
func (r *rows) disk(own *part.Record) *part.Node {
	node := &part.Node{ModifiedS: own.ModifiedS, Permissions: 0o644}
	take := func(content *part.Content) { node.Size, node.Contents = content.Size, []part.Content{*content} }
	switch {
	case r.random.Intn(6) == 0:
		return nil
	case r.random.Intn(6) == 0:
		take(r.content())
		if node.ModifiedS += int64(r.random.Intn(2)) * 300; own.Deleted {
			node.ModifiedS = 400
		}
		return node
	case own.Deleted:
		return nil
	}
	take(own.Content)
	return node
}

func draw(seed int64, devices, names int) []*join.Row {
	from := &rows{rand.New(rand.NewSource(seed)), devices}
	var all []*join.Row
	for place := 0; place < names; place++ {
		all = append(all, from.row(fmt.Sprintf("n%02d", place)))
	}
	return all
}

func kindsOf(seed int64, devices int) []string {
	random := rand.New(rand.NewSource(seed))
	var made []string
	for place := 0; place < devices; place++ {
		made = append(made, []string{"send-receive", "send-receive", "send-only", "receive-only"}[random.Intn(4)])
	}
	return made
}

func outlookOf(folder *join.Folder, all []*join.Row) *Outlook {
	return outlookBy(forecast.Budget{States: 1000, Walks: 10, Total: 1000000}, folder, all)
}

func outlookBy(budget forecast.Budget, folder *join.Folder, all []*join.Row) *Outlook {
	from := read.NewRows(folder)
	for _, row := range all {
		from.Take(row)
	}
	return NewForeteller(budget, presentOfPlans).Of(from)
}

// Each name that isn't at rest has one fate, and the counts are those of the names.
func TestEachNameHasOneFate(t *testing.T) {
	seen := map[Fate]int64{}
	for seed := int64(0); seed < 48; seed++ {
		told := outlookOf(folderOf(kindsOf(seed, 2+int(seed)%2)...), draw(seed, 2+int(seed)%2, 6))
		counts, sum := map[Fate]int64{}, int64(0)
		names := map[part.Bytes]bool{}
		for _, name := range told.Listed {
			counts[name.Fate]++
			names[name.Name] = true
		}
		for fate, count := range countsOf(told) {
			sum += count
			seen[fate] += count
			if counts[fate] != count {
				t.Errorf("seed %d: %d names are counted as %s, %d are listed", seed, count, fate, counts[fate])
			}
		}
		if sum != told.Names || int64(len(names)) != told.Names {
			t.Errorf("seed %d: %d names, %d counted, %d listed", seed, told.Names, sum, len(names))
		}
	}
	for _, fate := range []Fate{Lost, Depends, Changed, Deleted, Stays, ByItself} {
		if seen[fate] == 0 {
			t.Errorf("no name is drawn that is %s", fate)
		}
	}
}

// What stands on a disk now and on none at an end is told as lost, unless a device has recorded something that came after each record of it,
// or has something else of another time.
func TestNothingIsLostThatIsNotTold(t *testing.T) {
	told, replaced := 0, 0
	for seed := int64(0); seed < 24; seed++ {
		all := draw(seed, 2+int(seed)%2, 6)
		byName := map[string]*join.Row{}
		for _, row := range all {
			byName[row.Name] = row
		}
		for _, name := range outlookOf(folderOf(kindsOf(seed, 2+int(seed)%2)...), all).Listed {
			for _, node := range disksOf(byName[string(name.Name)]) {
				if isAtAllEnds(&name, node) {
					continue
				}
				switch {
				case isTold(&name, node):
					told++
				case mayBeReplaced(byName[string(name.Name)], node):
					replaced++
				default:
					t.Errorf("seed %d, %s (%s): %v goes, and nothing says so", seed, name.Name, name.Fate, node.Contents[0])
				}
			}
		}
	}
	if told < 8 || replaced < 8 {
		t.Errorf("%d told, %d replaced: too few were drawn", told, replaced)
	}
}

func disksOf(row *join.Row) []*part.Node {
	var disks []*part.Node
	for _, at := range row.At {
		if at.Disk != nil {
			disks = append(disks, at.Disk)
		}
	}
	return disks
}

func isContent(thing Thing, node *part.Node) bool {
	return thing.Content.Hash == node.Contents[0].Hash.String()
}

func isAtAllEnds(name *Name, node *part.Node) bool {
	for _, end := range name.Ends {
		is := false
		for place := range end {
			is = is || isContent(end[place], node)
		}
		if !is {
			return false
		}
	}
	return true
}

func isTold(name *Name, node *part.Node) bool {
	for place := range name.Loses {
		if isContent(name.Loses[place], node) {
			return true
		}
	}
	return false
}

// mayBeReplaced says whether something recorded, or something of another time, came after all records of what stands on a disk, which some device
// has recorded.
func mayBeReplaced(row *join.Row, node *part.Node) bool {
	isRecorded, isReplaced := false, false
	for _, at := range row.At {
		if at.Own.Content != nil && *at.Own.Content == node.Contents[0] {
			isRecorded = true
			isReplaced = isReplaced || at.Disk != nil && at.Disk.ModifiedS != at.Own.ModifiedS
		} else {
			isReplaced = true
		}
	}
	return isRecorded && isReplaced
}

// In which order the devices stand changes nothing.
func TestTheOrderOfDevicesChangesNothing(t *testing.T) {
	compared := 0
	for seed := int64(0); seed < 14; seed++ {
		folder, all := folderOf(kindsOf(seed, 3)...), draw(seed, 3, 3)
		one := outlookOf(folder, all)
		turned, turnedRows := turn(folder, all)
		other := outlookOf(turned, turnedRows)
		if one.Walked > 0 {
			continue
		}
		compared++
		if !reflect.DeepEqual(countsOf(one), countsOf(other)) {
			t.Errorf("seed %d: %v, and otherwise %v", seed, countsOf(one), countsOf(other))
		}
		for place, name := range one.Listed {
			if again := other.Listed[place]; name.Name != again.Name || name.Fate != again.Fate || len(name.Ends) != len(again.Ends) || len(name.Loses) != len(again.Loses) {
				t.Errorf("seed %d: %+v, and otherwise %+v", seed, name, again)
			}
		}
	}
	if compared < 5 {
		t.Errorf("%d were compared: too few", compared)
	}
}

// turn gives the same devices and rows with the last device first. Of which device a view is goes by its place in the device's own list.
func turn(folder *join.Folder, all []*join.Row) (*join.Folder, []*join.Row) {
	last := len(folder.Members) - 1
	turned := &join.Folder{ID: folder.ID, Members: append([]join.Member{folder.Members[last]}, folder.Members[:last]...)}
	var rows []*join.Row
	for _, row := range all {
		rows = append(rows, &join.Row{Name: row.Name, At: append([]*part.Name{row.At[last]}, row.At[:last]...)})
	}
	return turned, rows
}

// Where it isn't known what comes of a name since a device may never tell it, that device is named.
func TestWhoMayNeverTellANameIsNamed(t *testing.T) {
	folder := folderOf("send-receive", "send-receive")
	folder.Members[0].About.Views[0].Max = 99 // heard, and of the name's record it isn't so
	drawn := rows{rand.New(rand.NewSource(1)), 2}
	row := drawn.row("a")
	row.At[1].Own.Version = [][2]uint64{{2, 7}, {9, 1}}
	made := read.NewRows(folder)
	made.Take(row)
	told := NewForeteller(forecast.Budget{}, 0).Of(made)
	if len(told.Unknown) != 1 || told.Unknown[0].Why != string(read.NeverTold) || !reflect.DeepEqual(told.Unknown[0].Devices, []string{idOf(1)}) {
		t.Errorf("%+v", told.Unknown)
	}
}

// A file that is rotten on the one device that has it never comes right: no scan sees it.
func TestRotOnOneDeviceStays(t *testing.T) {
	own := &part.Record{ModifiedS: 100, ModifiedBy: 1, Version: [][2]uint64{{9, 1}}, Sequence: 1, Content: &part.Content{Size: 3, BlockSize: protocol.MinBlockSize, Hash: part.Hash{1}}}
	rotten := part.Content{Size: 3, BlockSize: protocol.MinBlockSize, Hash: part.Hash{2}}
	disk := &part.Node{ModifiedS: 100, Size: 3, Contents: []part.Content{rotten}, Permissions: 0o644}
	told := outlookOf(folderOf("send-receive"), []*join.Row{{Name: "a", At: []*part.Name{{Name: part.Bytes("a"), Own: own, Disk: disk}}}})
	if len(told.Listed) != 1 || told.Listed[0].Fate != Stays || told.Listed[0].Kept[0].Why != forecast.NotSeen {
		t.Errorf("%+v", told)
	}
}
