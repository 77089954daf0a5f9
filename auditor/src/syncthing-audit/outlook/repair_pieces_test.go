package outlook

import (
	"reflect"
	"strings"
	"testing"

	"syncthing-audit/advice"
	"syncthing-audit/damage"
	"syncthing-audit/forecast"
	"syncthing-audit/part"
)

// A record takes the place of another one as Syncthing chooses: the newer version; of concurrent ones what isn't deleted, and then the later time.
func TestWhichRecordIsLater(t *testing.T) {
	pairs := map[string]int{}
	for seed := int64(0); seed < 3000; seed++ {
		s, _, _ := drawn(seed)
		own, other := s.record(), s.record()
		if own == nil {
			continue
		}
		due, why := true, "first"
		if other != nil {
			isAtMost, isAtLeast := own.IsAtMost(other), other.IsAtMost(own)
			switch {
			case isAtLeast && !isAtMost:
				why = "newer"
			case isAtMost:
				due, why = false, "older or the same"
			case own.Deleted != other.Deleted:
				due, why = !own.Deleted, "deleted"
			default:
				due, why = own.Time > other.Time, "time"
			}
		}
		if is := isLater(own, other); is != due {
			t.Fatalf("%s: %+v, %+v: %v", why, own, other, is)
		}
		pairs[why]++
	}
	if len(pairs) != 5 {
		t.Errorf("%v: too few were drawn", pairs)
	}
}

// tree is a world of a directory and what is below it, at two devices, with a fate for each name.
func tree() (*repair, func(called string) *forecast.Name) {
	made := &repair{group: &forecast.World{Devices: folderDevices(2)}, damage: map[string][]damage.Kind{}, skip: map[string]bool{}}
	for _, name := range []string{"d", "d/a", "d/e", "d/e/b", "da", "f"} {
		record := &forecast.Record{Type: forecast.File, Content: smallContents[2]}
		if name == "d" || name == "d/e" {
			record = &forecast.Record{Type: forecast.Directory}
		}
		node := &forecast.Node{Type: record.Type, Content: record.Content}
		made.group.Names = append(made.group.Names, forecast.Name{Name: name, Own: []*forecast.Record{record, record}, Disk: []*forecast.Node{node, node}})
		made.told = append(made.told, Name{Name: part.Bytes(name), Fate: ByItself})
	}
	made.world = made.group.Copied()
	return made, func(called string) *forecast.Name {
		for place := range made.group.Names {
			if made.group.Names[place].Name == called {
				return &made.group.Names[place]
			}
		}
		return nil
	}
}

// at gives the place of a name.
func (r *repair) at(called string) int {
	for place := range r.group.Names {
		if r.group.Names[place].Name == called {
			return place
		}
	}
	return -1
}

// What is harmed: other bytes under the recorded time, or what looks damaged, unless the record may be the damage; what is missing where it is lost by that;
// and a directory that is gone where something below it is lost.
func TestWhatIsHarmed(t *testing.T) {
	rotten := &forecast.Node{Type: forecast.File, Content: smallContents[3]}
	later := &forecast.Node{Type: forecast.File, Content: smallContents[3], Time: 9}
	for place, row := range []struct {
		name   string
		change func(r *repair, name *forecast.Name)
		is     bool
	}{
		{"f", func(*repair, *forecast.Name) {}, false},
		{"f", func(_ *repair, name *forecast.Name) { name.Disk[1] = rotten }, true},
		{"f", func(_ *repair, name *forecast.Name) { name.Disk[1] = later }, false},
		{"f", func(r *repair, name *forecast.Name) {
			name.Disk[1], r.damage["f"] = later, []damage.Kind{"", damage.Zeros}
		}, true},
		{"f", func(r *repair, name *forecast.Name) {
			name.Disk[1], r.damage["f"] = later, []damage.Kind{damage.Zeros, ""}
		}, false},
		{"f", func(r *repair, name *forecast.Name) {
			name.Disk[1], r.damage["f"] = rotten, []damage.Kind{"", damage.Longer}
		}, false},
		{"f", func(_ *repair, name *forecast.Name) { name.Disk[1] = nil }, false},
		{"f", func(r *repair, name *forecast.Name) { name.Disk[1] = nil; r.told[r.at("f")].Fate = Lost }, true},
		{"f", func(_ *repair, name *forecast.Name) { name.Disk[1] = &forecast.Node{Type: forecast.Directory} }, false},
		{"f", func(_ *repair, name *forecast.Name) { name.Disk[1], name.Own[1] = rotten, nil }, false},
		{"f", func(_ *repair, name *forecast.Name) {
			name.Disk[1], name.Own[1] = rotten, &forecast.Record{Type: forecast.File, Deleted: true}
		}, false},
		{"f", func(_ *repair, name *forecast.Name) {
			name.Disk[1], name.Own[1] = rotten, &forecast.Record{Type: forecast.File, Flag: forecast.LocalChange}
		}, false},
		{"d", func(_ *repair, name *forecast.Name) { name.Disk[1] = nil }, false},
		{"d", func(r *repair, name *forecast.Name) { name.Disk[1] = nil; r.told[r.at("d/e/b")].Fate = Lost }, true},
		{"d", func(r *repair, name *forecast.Name) { name.Disk[1] = rotten; r.told[r.at("d/a")].Fate = Lost }, true},
		{"d", func(r *repair, name *forecast.Name) { r.told[r.at("d/a")].Fate = Lost }, false},
		{"d", func(r *repair, name *forecast.Name) { name.Disk[1] = nil; r.told[r.at("da")].Fate = Lost }, false},
		{"d", func(r *repair, name *forecast.Name) { name.Disk[1] = nil; r.told[r.at("d/e")].Fate = Lost }, false},
	} {
		r, find := tree()
		name := find(row.name)
		row.change(r, name)
		if is := r.isHarmed(name, 1, name.Disk[1], &r.told[r.at(row.name)]); is != row.is {
			t.Errorf("%d: %v", place, is)
		}
	}
	r, find := tree()
	r.damage["f"] = []damage.Kind{"", damage.Zeros}
	if r.isHarmed(find("f"), 1, later, &r.told[r.at("f")]) {
		t.Error("what was put there since looks damaged, as what stood there before")
	}
}

// Something can be copied where the directory above stands, or where none is among the names and so on upwards.
func TestWhereThereIsADirectoryAbove(t *testing.T) {
	r, _ := tree()
	r.world.Remove(1, "d/e")
	r.world.Put(0, "f/x", forecast.Node{Type: forecast.File})
	for name, is := range map[string]bool{"f": true, "d/a": true, "d/e/b": false, "d/x/y": true, "f/x": false, "f/x/y": false, "x/y": true, "d/e/x/y": false} {
		if has := r.hasDirectoryAbove(1, name); has != is {
			t.Errorf("%s: %v", name, has)
		}
	}
	if !isBelow("d/a", "d") || isBelow("da", "d") || isBelow("d", "d") || isBelow("d/", "d") != true || isBelow("e/d", "d") {
		t.Error("isBelow")
	}
}

// Directories are put back first, in the order of their names, and then what is in most danger.
func TestTheOrderOfRepairs(t *testing.T) {
	r, _ := tree()
	r.told[r.at("f")].Fate = Lost
	var names []string
	for _, place := range r.order() {
		names = append(names, r.group.Names[place].Name)
	}
	if told := strings.Join(names, " "); told != "d d/e f d/a d/e/b da" {
		t.Error(told)
	}
}

// What is due at a name is a change that no scan has seen yet, the latest one, or else what was recorded last and stands somewhere.
func TestWhatIsDue(t *testing.T) {
	node := func(place int, time int64) *forecast.Node {
		return &forecast.Node{Type: forecast.File, Content: smallContents[place], Time: time}
	}
	version := func(value uint64, place int) *forecast.Record {
		return &forecast.Record{Type: forecast.File, Content: smallContents[place], Version: []forecast.Counter{{Device: 1, Value: value}}}
	}
	deleted := version(9, 0)
	deleted.Deleted = true
	for place, row := range []struct {
		own    []*forecast.Record
		disk   []*forecast.Node
		change func(r *repair)
		from   int
	}{
		{[]*forecast.Record{version(1, 2), version(1, 2)}, []*forecast.Node{node(2, 0), node(2, 0)}, nil, 0},
		{[]*forecast.Record{version(1, 2), version(1, 2)}, []*forecast.Node{node(3, 0), node(2, 0)}, nil, 1},
		{[]*forecast.Record{version(1, 2), version(2, 3)}, []*forecast.Node{node(2, 0), node(3, 0)}, nil, 1},
		{[]*forecast.Record{version(2, 2), version(1, 3)}, []*forecast.Node{node(2, 0), node(3, 0)}, nil, 0},
		{[]*forecast.Record{version(1, 2), version(2, 4)}, []*forecast.Node{node(2, 0), node(3, 0)}, nil, -1},
		{[]*forecast.Record{version(1, 2), deleted}, []*forecast.Node{node(2, 0), nil}, nil, -1},
		{[]*forecast.Record{version(1, 2), version(1, 2)}, []*forecast.Node{node(2, 0), node(3, 7)}, nil, 1},
		{[]*forecast.Record{version(1, 2), version(1, 2)}, []*forecast.Node{node(4, 8), node(3, 7)}, nil, 0},
		{[]*forecast.Record{version(1, 2), version(1, 2)}, []*forecast.Node{node(4, 7), node(3, 8)}, nil, 1},
		{[]*forecast.Record{version(1, 2), version(1, 2)}, []*forecast.Node{node(4, 7), node(3, 7)}, nil, 0},
		{[]*forecast.Record{version(1, 2), version(1, 2)}, []*forecast.Node{node(2, 0), node(3, 7)}, func(r *repair) { r.group.Devices[1].Kind = forecast.ReceiveOnly }, 0},
		{[]*forecast.Record{version(1, 2), version(1, 2)}, []*forecast.Node{node(2, 0), node(3, 7)}, func(r *repair) { r.damage["f"] = []damage.Kind{"", damage.Cut} }, 0},
		{[]*forecast.Record{version(1, 2), version(1, 2)}, []*forecast.Node{node(2, 0), node(2, 0)}, func(r *repair) { r.damage["f"] = []damage.Kind{"", damage.Longer} }, -1},
		{[]*forecast.Record{version(1, 1), version(2, 1)}, []*forecast.Node{node(2, 7), node(1, 0)}, nil, 0},
		{[]*forecast.Record{version(1, 2), version(2, 1)}, []*forecast.Node{node(2, 0), node(1, 0)}, nil, -1},
		{[]*forecast.Record{nil, version(1, 2)}, []*forecast.Node{node(3, 9), node(2, 0)}, nil, 1},
		{[]*forecast.Record{nil, nil}, []*forecast.Node{node(3, 9), nil}, nil, -1},
	} {
		r, _ := tree()
		name := &r.group.Names[r.at("f")]
		name.Own, name.Disk = row.own, row.disk
		if row.change != nil {
			row.change(r)
		}
		due, from := r.dueOf(name, &r.told[r.at("f")])
		if from != row.from || (due == nil) != (from < 0) || from >= 0 && due != name.Disk[from] {
			t.Errorf("%d: %+v from %d, not %d", place, due, from, row.from)
		}
	}
}

// Of a directory on several devices that one is taken below which least is otherwise than due; of these the one with most of it.
func TestFromWhichDeviceADirectoryIsTaken(t *testing.T) {
	rotten := &forecast.Node{Type: forecast.File, Content: smallContents[3]}
	for place, row := range []struct {
		change func(find func(string) *forecast.Name)
		from   int
	}{
		{func(func(string) *forecast.Name) {}, 0},
		{func(find func(string) *forecast.Name) { find("d/a").Disk[0] = rotten }, 1},
		{func(find func(string) *forecast.Name) { find("d/a").Disk[1] = rotten }, 0},
		{func(find func(string) *forecast.Name) { find("d/a").Disk[0] = nil }, 1},
		{func(find func(string) *forecast.Name) { find("d/a").Disk[0] = rotten; find("d/e/b").Disk[1] = nil }, 1},
		{func(find func(string) *forecast.Name) { find("da").Disk[0] = rotten }, 0},
		{func(find func(string) *forecast.Name) { find("d").Disk[0] = nil }, 1},
		{func(find func(string) *forecast.Name) { find("d").Disk = []*forecast.Node{nil, nil} }, -1},
	} {
		r, find := tree()
		row.change(find)
		if due, from := r.holderOf(find("d"), find("d").Own[0]); from != row.from || (due == nil) != (from < 0) {
			t.Errorf("%d: from %d, not %d", place, from, row.from)
		}
	}
	r, find := tree()
	find("d/a").Disk[0] = rotten
	if others, same := r.countBelow(0, "d"); others != 1 || same != 1 {
		t.Errorf("%d others, %d the same", others, same)
	}
}

// What stands in place of a directory goes before the directory comes, and a plan that loses more than harmed bytes isn't taken.
func TestStepsOfARepair(t *testing.T) {
	r, find := tree()
	find("d").Disk[1] = &forecast.Node{Type: forecast.File}
	r.world = r.group.Copied()
	steps := append(r.copyTo("d", 1, 0, find("d").Disk[1], find("d").Disk[0]), r.copyTo("f", 1, 0, nil, find("f").Disk[0])...)
	due := []advice.Step{{Act: advice.Delete, Device: 1, Name: "d"}, {Act: advice.Copy, Device: 1, Name: "d"}, {Act: advice.Copy, Device: 1, Name: "f"}}
	if !reflect.DeepEqual(steps, due) || r.world.At(1, "d").Type != forecast.Directory {
		t.Errorf("%+v", steps)
	}
	for _, name := range []string{"d", "d/a", "d/e/b", "da"} {
		r.hands = append(r.hands, hand{goal: advice.Goal{Name: name}})
	}
	if count := r.namesBelow("d"); count != 2 {
		t.Errorf("%d names below", count)
	}
	find("f").Disk[1] = &forecast.Node{Type: forecast.File, Content: smallContents[3]}
	for place, is := range map[int]bool{2: false, 3: true, 4: false} {
		if r.losesNothing(&advice.Plan{Costs: []forecast.Content{smallContents[place]}}) != is {
			t.Errorf("the loss of content %d is allowed: %v", place, !is)
		}
	}
	if !r.losesNothing(&advice.Plan{Lost: smallContents}) || r.losesNothing(&advice.Plan{Costs: []forecast.Content{smallContents[3], smallContents[4]}}) {
		t.Error("what is lost without the plan counts, or what it costs doesn't")
	}
}
