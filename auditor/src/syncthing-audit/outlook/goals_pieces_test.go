package outlook

import (
	"reflect"
	"sort"
	"testing"

	"syncthing-audit/advice"
	"syncthing-audit/damage"
	"syncthing-audit/forecast"
	"syncthing-audit/part"
)

// What is to stand at a name of which devices keep other bytes is what most of the others have in the end and stands there now.
func TestWhatTheOthersComeTo(t *testing.T) {
	found := map[bool]int{}
	for seed := int64(0); seed < 3000; seed++ {
		s, group, answer := drawn(seed)
		name, devices := &group.Names[0], len(group.Devices)
		told := &Name{Ends: [][]Thing{thingsOf(anyDevices, &answer.Ends[0])["a"]}}
		keeps := map[int]bool{}
		for member := 0; member < devices; member++ {
			if s.Intn(4) == 0 {
				keeps[member] = true
				told.Kept = append(told.Kept, Kept{Device: idOf(member), Why: forecast.NotSeen, member: member})
			}
		}
		due, most := "", 0
		for _, thing := range told.Ends[0] {
			key, isKept, stands := keyOf(thing.Type, thing.Content, string(thing.Target), thing.IsCopy), false, false
			for _, member := range placesOf(thing.Devices) {
				isKept = isKept || keeps[member]
			}
			for member := 0; member < devices; member++ {
				stands = stands || nowAt(name, member) == key
			}
			if !isKept && stands && len(thing.Devices) > most {
				due, most = key, len(thing.Devices)
			}
		}
		is := ""
		if node := comesTo(name, told); node != nil {
			is = keyOf(node.Type, node.Content, node.Target, false)
		}
		if is != due {
			t.Fatalf("%d: %s, not %s", seed, is, due)
		}
		found[due != ""]++
	}
	if found[true] < 100 || found[false] < 100 {
		t.Errorf("%v: too few were drawn", found)
	}
}

// Of some things the one that is recorded last is to stand there: none where a later record has other bytes that are on no disk, or none.
func TestWhatWasRecordedLast(t *testing.T) {
	found := map[bool]int{}
	for seed := int64(0); seed < 6000; seed++ {
		_, group, _ := drawn(seed)
		name := &group.Names[0]
		things, node := thingsNow(anyDevices, name), lastRecorded(name, thingsNow(anyDevices, name))
		var candidates []*forecast.Record
		for _, own := range name.Own {
			for place := range things {
				if isValid(own) && own.Type != forecast.Directory && isOf(own, things[place]) {
					candidates = append(candidates, own)
				}
			}
		}
		if found[node != nil]++; node == nil {
			continue
		}
		isOne := false
		for _, own := range candidates {
			isOne = isOne || isOf(own, thingOf(node))
			if !isOf(own, thingOf(node)) && isBelowAll(own, candidates, thingOf(node)) {
				t.Fatalf("%d: %+v, and %+v was recorded later", seed, node, own)
			}
		}
		for _, own := range name.Own {
			isLater := isValid(own) && !own.Deleted && isAbove(own, candidates, thingOf(node))
			if isLater && (nodeOf(name, thingOfRecord(own)) == nil || own.Content.Size == 0 && own.Type == forecast.File && node.Content.Size > 0) {
				t.Fatalf("%d: %+v, and nobody has what %+v says", seed, node, own)
			}
		}
		if !isOne {
			t.Fatalf("%d: %+v is recorded nowhere", seed, node)
		}
	}
	if found[true] < 100 || found[false] < 100 {
		t.Errorf("%v: too few were drawn", found)
	}
}

// isBelowAll says whether all records of a thing among these are below another record.
func isBelowAll(other *forecast.Record, records []*forecast.Record, thing Thing) bool {
	for _, own := range records {
		if isOf(own, thing) && !own.IsBelow(other) {
			return false
		}
	}
	return true
}

// isAbove says whether a record is above all records of a thing among these.
func isAbove(other *forecast.Record, records []*forecast.Record, thing Thing) bool {
	return isBelowAll(other, records, thing)
}

// Of several ends, what stands there now and was modified last is to stand at a name.
func TestWhatWasModifiedLast(t *testing.T) {
	file := func(time int64, place int) *forecast.Node {
		return &forecast.Node{Type: forecast.File, Time: time, Content: smallContents[place]}
	}
	name := &forecast.Name{Disk: []*forecast.Node{file(5, 2), nil, file(7, 3), file(7, 4)}}
	end := func(places ...int) []Thing {
		var made []Thing
		for _, place := range places {
			made = append(made, Thing{Type: forecast.File, Content: smallContents[place], Devices: at(0)})
		}
		return made
	}
	copied := end(3)
	copied[0].IsCopy = true
	for place, row := range []struct {
		ends [][]Thing
		due  *forecast.Node
	}{
		{nil, nil}, {[][]Thing{end(1)}, nil}, {[][]Thing{end(2), nil}, name.Disk[0]}, {[][]Thing{end(2), end(3)}, name.Disk[2]}, {[][]Thing{end(3), end(2)}, name.Disk[2]},
		{[][]Thing{end(4), end(3)}, name.Disk[3]}, {[][]Thing{end(2), copied}, name.Disk[0]},
	} {
		if made := laterOf(name, &Name{Ends: row.ends}); made != row.due {
			t.Errorf("%d: %+v, not %+v", place, made, row.due)
		}
	}
}

// A directory needs a hand where it is missing somewhere, and a file below it is lost.
func TestDirectoriesThatHoldWhatIsLost(t *testing.T) {
	directory, file := &forecast.Node{Type: forecast.Directory}, &forecast.Node{Type: forecast.File}
	name := func(called string, disks ...*forecast.Node) forecast.Name {
		own := make([]*forecast.Record, len(disks))
		for member, what := range disks {
			if what != nil {
				own[member] = &forecast.Record{Type: what.Type}
			}
		}
		return forecast.Name{Name: called, Disk: disks, Own: own}
	}
	for place, row := range []struct {
		names []forecast.Name
		fate  Fate
		is    bool
	}{
		{[]forecast.Name{name("d", directory, nil), name("d/a", file, nil)}, Lost, true}, {[]forecast.Name{name("d", nil, directory), name("d/a", file, nil)}, Lost, true},
		{[]forecast.Name{name("d", directory, file), name("d/a", file, nil)}, Lost, true}, {[]forecast.Name{name("d", directory, directory), name("d/a", file, nil)}, Lost, false},
		{[]forecast.Name{name("d", file, nil), name("d/a", file, nil)}, Lost, false}, {[]forecast.Name{name("d", directory, nil), name("d/a", file, nil)}, Stays, false},
		{[]forecast.Name{name("d", directory, nil), name("d/a", directory, nil)}, Lost, false}, {[]forecast.Name{name("d", directory, nil), name("da", file, nil)}, Lost, false},
		{[]forecast.Name{name("d", directory, nil), name("e/d/a", file, nil)}, Lost, false},
	} {
		if is := holdsLost(&forecast.World{Names: row.names}, []Name{{}, {Fate: row.fate}}, 0); is != row.is {
			t.Errorf("%d: %v", place, is)
		}
	}
}

// Which plan is taken of several: the first that deletes nothing, or else the first.
func TestTheBestPlan(t *testing.T) {
	steps := func(acts ...advice.Act) advice.Plan {
		var found advice.Plan
		for _, act := range acts {
			found.Steps = append(found.Steps, advice.Step{Act: act})
		}
		return found
	}
	deleting, twice, kept := steps(advice.Copy, advice.Delete), steps(advice.Delete, advice.Touch), steps(advice.Copy)
	for place, row := range []struct {
		plans []advice.Plan
		due   int
	}{{nil, -1}, {[]advice.Plan{deleting}, 0}, {[]advice.Plan{deleting, twice}, 0}, {[]advice.Plan{deleting, kept, kept}, 1}, {[]advice.Plan{kept, deleting}, 0}, {[]advice.Plan{steps(), kept}, 0}} {
		found := best(row.plans)
		if (found == nil) != (row.due < 0) || found != nil && found != &row.plans[row.due] {
			t.Errorf("%d: %+v", place, found)
		}
	}
}

// What is lost is saved first where it stands, but an empty file; so is what may be right where the record may be the damage, once.
func TestWhatIsSavedFirst(t *testing.T) {
	node := func(place int) *forecast.Node {
		return &forecast.Node{Type: forecast.File, Content: smallContents[place]}
	}
	name := &forecast.Name{Disk: []*forecast.Node{node(2), node(1), node(3), node(3)}}
	save := func(members ...int) (steps []Step) {
		for _, member := range members {
			steps = append(steps, Step{Act: Save, Device: idOf(member)})
		}
		return steps
	}
	things := thingsNow(anyDevices, name)
	none := make([]damage.Kind, 4)
	for place, row := range []struct {
		things []Thing
		kinds  []damage.Kind
		due    []Step
	}{
		{nil, nil, nil}, {things, nil, save(0, 2)}, {things[:1], none, save(0)}, {things[:1], []damage.Kind{damage.Longer, damage.None, damage.Cut, damage.OverZeros}, save(0, 3)},
		{nil, []damage.Kind{damage.None, damage.Longer, damage.None, damage.None}, save(1)}, {things[1:2], none, nil},
	} {
		if steps := savesOf(anyDevices, name, row.things, row.kinds); !reflect.DeepEqual(steps, row.due) {
			t.Errorf("%d: %+v, not %+v", place, steps, row.due)
		}
	}
	link := Thing{Type: forecast.Symlink}
	if link.isEmpty() || len(filesOf([]Thing{{Type: forecast.Directory}, link})) != 1 {
		t.Error("a symlink is taken for an empty file, or for a directory")
	}
}

// Names with one plan stand together, and directories that are copied first, those above others before these.
func TestPlansThatStandTogether(t *testing.T) {
	directory, file := &Thing{Type: forecast.Directory, Devices: at(0)}, &Thing{Type: forecast.File, Devices: at(0)}
	touch := []Step{{Act: Touch, Device: idOf(1)}}
	listed := []Name{
		{Name: "z", Plan: &Plan{Steps: touch, Goal: file, IsAll: true}}, {Name: "none"}, {Name: "empty", Plan: &Plan{}}, {Name: "d/e", Plan: &Plan{Steps: touch, Goal: directory, Below: 2}},
		{Name: "d/e/x", Plan: &Plan{by: "d/e"}}, {Name: "d/e/y", Plan: &Plan{by: "elsewhere"}}, {Name: "d", Plan: &Plan{Steps: touch, Goal: directory}},
		{Name: "y", Plan: &Plan{Steps: touch, Goal: file, IsAll: true}}, {Name: "x", Plan: &Plan{Steps: touch, Goal: file}},
		{Name: "w", Plan: &Plan{Steps: touch, Goal: &Thing{Type: forecast.File, Devices: at(1)}, IsAll: true}}, {Name: "v", Plan: &Plan{Steps: touch, IsAll: true}},
		{Name: "u", Plan: &Plan{Steps: touch, Goal: file, IsAll: true, Copies: at(1)}}, {Name: "d/f", Plan: &Plan{Steps: touch, Goal: directory, Below: 3}},
	}
	var names [][]part.Bytes
	var counts, below []int64
	for _, plan := range plansOf(listed) {
		names, counts, below = append(names, plan.Names), append(counts, plan.Count), append(below, plan.Below)
	}
	due := [][]part.Bytes{{"d"}, {"d/e", "d/f"}, {"z", "y"}, {"x"}, {"w"}, {"v"}, {"u"}}
	if !reflect.DeepEqual(names, due) || !reflect.DeepEqual(counts, []int64{1, 2, 2, 1, 1, 1, 1}) || !reflect.DeepEqual(below, []int64{0, 6, 0, 0, 0, 0, 0}) {
		t.Errorf("%q, %v, %v", names, counts, below)
	}
	many := make([]Name, MostListed+1)
	for place := range many {
		many[place] = Name{Name: "a", Plan: &Plan{Steps: touch}}
	}
	if plans := plansOf(many); len(plans) != 1 || plans[0].Count != MostListed+1 || len(plans[0].Names) != MostListed {
		t.Errorf("%d plans", len(plans))
	}
}

// A thing is a copy at all ends where at each end a copy stands that doesn't go by meeting another one.
func TestWhatIsACopyAtAllEnds(t *testing.T) {
	found := map[bool]int{}
	for seed := int64(0); seed < 4000; seed++ {
		_, group, answer := drawn(seed)
		judge := newJudge(group, answer, nil)
		for _, thing := range thingsNow(anyDevices, &group.Names[0]) {
			due := true
			for place := range answer.Ends {
				is := false
				things := thingsOf(anyDevices, &answer.Ends[place])["a"]
				for at, other := range things {
					key := keyOf(thing.Type, thing.Content, string(thing.Target), true)
					is = is || keyOf(other.Type, other.Content, string(other.Target), other.IsCopy) == key && !mayGoByMeeting(things, at)
				}
				due = due && is
			}
			thing := thing
			if is := judge.isCopyAtAll("a", thing); is != due {
				t.Fatalf("%d: %+v: %v", seed, thing, is)
			}
			found[due]++
		}
	}
	if found[true] < 20 {
		t.Errorf("%v: too few were drawn", found)
	}
}

// Of several copies of a name at one place, which met, some may go: each of which another one is on all its devices.
func TestCopiesThatMayMeet(t *testing.T) {
	for seed := int64(0); seed < 1000; seed++ {
		_, _, answer := drawn(seed)
		for _, things := range thingsOf(anyDevices, &answer.Ends[0]) {
			goes := 0
			for at := range things {
				due := false
				for other := range things {
					if other != at && things[at].IsCopy && things[other].IsCopy {
						has := map[int]bool{}
						for _, member := range placesOf(things[other].Devices) {
							has[member] = true
						}
						missing := sort.Search(len(things[at].Devices), func(place int) bool {
							for _, member := range placesOf(things[at].Devices)[:place+1] {
								if !has[member] {
									return true
								}
							}
							return false
						})
						due = due || missing == len(things[at].Devices)
					}
				}
				if is := mayGoByMeeting(things, at); is != due {
					t.Fatalf("%d: %+v, %d: %v", seed, things, at, is)
				}
				goes += count(due)
			}
			if ends := withMeetings(things); len(ends) != 1+goes || len(ends[0]) != len(things) || goes > 0 && len(ends[1]) != len(things)-1 {
				t.Fatalf("%d: %+v", seed, ends)
			}
		}
	}
}
