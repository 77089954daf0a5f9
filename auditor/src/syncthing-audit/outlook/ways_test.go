package outlook

import (
	"reflect"
	"testing"

	"syncthing-audit/damage"
	"syncthing-audit/forecast"
	"syncthing-audit/forecast/read"
	"syncthing-audit/lists"
	"syncthing-audit/part"
)

// isFile says whether something is a file.
func isFile(kind forecast.Type) bool { return kind == forecast.File }

// A scan takes for somebody's change what is of another kind than recorded, and what has other bytes at another time, unless it was emptied; other bytes
// under the recorded time are rot.
func TestWhatAScanTakesForAChange(t *testing.T) {
	changes, rots := 0, 0
	for seed := int64(0); seed < 3000; seed++ {
		s, _, _ := drawn(seed)
		own, what := s.record(), s.node()
		if own == nil || what == nil {
			if own != nil && showsChange(own, nil) {
				t.Fatalf("%+v: nothing is there", own)
			}
			continue
		}
		isSameKind := !own.Deleted && own.Type == what.Type
		hasOtherBytes := isSameKind && isFile(what.Type) && own.Content != what.Content
		wasEmptied := own.Content.Size > 0 && what.Content.Size == 0
		due := !isSameKind || hasOtherBytes && own.Time != what.Time && !wasEmptied || !isFile(what.Type) && own.Target != what.Target
		if is := showsChange(own, what); is != due {
			t.Fatalf("%+v, %+v: %v", own, what, is)
		}
		isDueRot := hasOtherBytes && own.Time == what.Time
		name := &forecast.Name{Own: []*forecast.Record{nil, own}, Disk: []*forecast.Node{what, what}}
		if isRot(own, what) != isDueRot || hasRot(name) != isDueRot {
			t.Fatalf("%+v, %+v: %v, %v", own, what, isRot(own, what), hasRot(name))
		}
		thing := thingOf(what)
		if is := isOf(own, thing); is != (isSameKind && own.Content == what.Content && own.Target == what.Target) {
			t.Fatalf("%+v, %+v: %v", own, what, is)
		}
		if is := isEmptied(own, thing); is != (isSameKind && isFile(what.Type) && own.Content.Size == 0 && what.Content.Size > 0) {
			t.Fatalf("%+v, %+v: %v", own, what, is)
		}
		changes, rots = changes+count(due), rots+count(isDueRot)
	}
	if changes < 100 || rots < 20 || isRot(nil, &forecast.Node{Type: forecast.File}) || hasRot(&forecast.Name{Own: []*forecast.Record{{Type: forecast.File}}, Disk: []*forecast.Node{nil}}) {
		t.Errorf("%d changes, %d rots", changes, rots)
	}
}

func count(is bool) int {
	if is {
		return 1
	}
	return 0
}

// A change is unscanned where a scan would see it: something is there and isn't recorded, or the other way round; or kind, target or a file's time differ.
func TestWhatIsUnscanned(t *testing.T) {
	for seed := int64(0); seed < 3000; seed++ {
		s, _, _ := drawn(seed)
		own, what := s.record(), s.node()
		isRecorded := own != nil && !own.Deleted
		due := isRecorded != (what != nil)
		if isRecorded && what != nil {
			due = own.Type != what.Type || own.Target != what.Target || isFile(what.Type) && own.Time != what.Time
		}
		if is := isUnscanned(own, what); is != due {
			t.Fatalf("%+v, %+v: %v", own, what, is)
		}
	}
}

// What stands on a disk is replaced by a record that came after all records of it, whose bytes survive or which deletes; else by a change after them that
// looks like no damage. What nobody recorded nothing replaced.
func TestWhatReplacesAThing(t *testing.T) {
	ways := map[way]int{}
	for seed := int64(0); seed < 6000; seed++ {
		s, group, answer := drawn(seed)
		name := &group.Names[0]
		damaged := map[string][]damage.Kind{}
		if s.Intn(2) == 0 {
			damaged["a"] = make([]damage.Kind, len(name.Disk))
			damaged["a"][s.Intn(len(name.Disk))] = damage.Cut
		}
		judge := newJudge(group, answer, damaged)
		for _, thing := range thingsNow(anyDevices, name) {
			thing := thing
			due := plainWay(judge, name, thing, damaged["a"])
			if by := judge.wayOf(name, thing); by != due {
				t.Fatalf("%d: %+v: %v, not %v", seed, thing, by, due)
			}
			ways[due]++
		}
	}
	if ways[byNothing] < 100 || ways[byRecord] < 100 || ways[byUnscanned] < 100 {
		t.Errorf("%v: too few were drawn", ways)
	}
}

func plainWay(judge *judge, name *forecast.Name, thing Thing, kinds []damage.Kind) way {
	var valid, of []*forecast.Record
	for _, own := range name.Own {
		if isValid(own) {
			if valid = append(valid, own); isOf(own, thing) {
				of = append(of, own)
			}
		}
	}
	isAfterAll := func(own *forecast.Record, orSame bool) bool {
		for _, before := range of {
			if !before.IsAtMost(own) || !orSame && own.IsAtMost(before) {
				return false
			}
		}
		return len(of) > 0
	}
	for _, own := range valid {
		isOfOneTime := false
		for _, before := range of {
			isOfOneTime = isOfOneTime || before.Time == own.Time
		}
		areOtherBytes := own.Type == forecast.File && thing.Type == forecast.File && thing.Content.Size > 0 && own.Content != thing.Content
		hasBytes := !(areOtherBytes && (own.Content.Size == 0 || isOfOneTime)) && judge.survives(name.Name, thingOfRecord(own))
		if isAfterAll(own, false) && !isOf(own, thing) && (own.Deleted || hasBytes) {
			return byRecord
		}
	}
	for member, own := range name.Own {
		if isValid(own) && isAfterAll(own, true) && showsChange(own, name.Disk[member]) && (kinds == nil || kinds[member] == damage.None) {
			return byUnscanned
		}
	}
	return byNothing
}

// All devices have one record where each has the same valid version, and each knows that of each other.
func TestWhereAllHaveOneRecord(t *testing.T) {
	version := func(value uint64) *forecast.Record {
		return &forecast.Record{Version: []forecast.Counter{{Device: 1, Value: value}}}
	}
	made := func(change func(name *forecast.Name)) bool {
		name := &forecast.Name{Own: []*forecast.Record{version(3), version(3)}, Views: [][]*forecast.Record{{nil, version(3)}, {version(3), nil}}}
		change(name)
		return hasOneRecord(name)
	}
	if !made(func(*forecast.Name) {}) {
		t.Error("they don't have one")
	}
	for place, change := range []func(name *forecast.Name){
		func(name *forecast.Name) { name.Own[0] = nil }, func(name *forecast.Name) { name.Own[1] = nil },
		func(name *forecast.Name) { name.Own[1] = version(2) }, func(name *forecast.Name) { name.Own[1] = version(4) },
		func(name *forecast.Name) { name.Views[0][1] = version(2) }, func(name *forecast.Name) { name.Views[1][0] = nil },
		func(name *forecast.Name) { name.Own[1].Flag = forecast.LocalChange }, func(name *forecast.Name) { name.Own[0].Flag = forecast.LocalChange },
	} {
		if made(change) {
			t.Errorf("change %d isn't seen", place)
		}
	}
	if kindOf(nil, "a", 0) != damage.None {
		t.Error("it looks damaged, and nothing is known of it")
	}
}

// Names that aren't looked at matter where a device finds no source, or where a name is rotten and its records differ.
func TestWhereTwinsMatter(t *testing.T) {
	record := func(value uint64) *forecast.Record {
		return &forecast.Record{Type: forecast.File, Content: smallContents[2], Version: []forecast.Counter{{Device: 1, Value: value}}}
	}
	of := func(value uint64, content forecast.Content) forecast.Name {
		node := &forecast.Node{Type: forecast.File, Content: content}
		return forecast.Name{Own: []*forecast.Record{record(1), record(value)}, Views: [][]*forecast.Record{{nil, record(value)}, {record(1), nil}}, Disk: []*forecast.Node{node, node}}
	}
	whole, rotten := smallContents[2], smallContents[3]
	for place, row := range []struct {
		names []forecast.Name
		stuck []forecast.Stuck
		is    bool
	}{
		{[]forecast.Name{of(1, whole)}, nil, false}, {[]forecast.Name{of(1, rotten)}, nil, false}, {[]forecast.Name{of(2, whole)}, nil, false}, {[]forecast.Name{of(2, rotten)}, nil, true},
		{[]forecast.Name{of(1, rotten), of(2, whole)}, nil, true}, {[]forecast.Name{of(2, whole), of(1, rotten)}, nil, true}, {[]forecast.Name{of(1, rotten), of(1, rotten)}, nil, false},
		{[]forecast.Name{of(1, whole)}, []forecast.Stuck{{Why: forecast.OnlySends}}, false}, {[]forecast.Name{of(1, whole)}, []forecast.Stuck{{Why: forecast.OnlySends}, {Why: forecast.NoSource}}, true},
	} {
		answer := &forecast.Answer{Ends: []forecast.End{{}, {Stuck: row.stuck}}}
		if is := mayTakeFromTwins(&forecast.World{Names: row.names}, answer); is != row.is {
			t.Errorf("%d: %v", place, is)
		}
	}
}

// A choice counts the names that come to another end, those on which all agree then, and what is lost by it alone; its list has an end, its counts don't.
func TestWhatAChoiceCounts(t *testing.T) {
	file := func(member int, place int) Thing {
		return Thing{Devices: at(member), Type: forecast.File, Content: smallContents[place]}
	}
	both := Thing{Devices: at(0, 1), Type: forecast.File, Content: smallContents[2]}
	before := &Name{Name: "a", Ends: [][]Thing{{file(0, 2)}}, Loses: []Thing{file(0, 3)}, IsAll: true}
	for place, row := range []struct {
		after Name
		due   Choice
	}{
		{Name{Ends: before.Ends, Loses: []Thing{file(1, 4)}}, Choice{IsAll: true}},
		{Name{Name: "a", Ends: [][]Thing{{both}}, IsAll: true}, Choice{Names: 1, Alike: 1, IsAll: true}},
		{Name{Name: "a", Ends: [][]Thing{{both}}}, Choice{Names: 1, Alike: 1}},
		{Name{Name: "a", Ends: [][]Thing{{both}, {file(1, 3)}}, IsAll: true}, Choice{Names: 1, IsAll: true}},
		{Name{Name: "a", Ends: [][]Thing{{file(1, 3)}, {both}}, IsAll: true, Loses: []Thing{file(0, 3)}}, Choice{Names: 1, IsAll: true}},
		{Name{Name: "a", Ends: [][]Thing{{file(1, 3)}}, IsAll: true, Loses: []Thing{file(0, 3), file(0, 4)}},
			Choice{Names: 1, IsAll: true, Lost: 1, Loses: []Loss{{"a", []Thing{file(0, 4)}}}}},
	} {
		choice := Choice{IsAll: true}
		if choice.take(before, row.after, 2); !reflect.DeepEqual(choice, row.due) {
			t.Errorf("%d: %+v, not %+v", place, choice, row.due)
		}
	}
	choice := Choice{}
	for count := 0; count < MostListed+2; count++ {
		choice.take(before, Name{Ends: [][]Thing{{both}}, Loses: []Thing{file(0, 4)}}, 2)
	}
	if choice.Lost != MostListed+2 || len(choice.Loses) != MostListed || choice.IsAll {
		t.Errorf("%d lost, %d listed", choice.Lost, len(choice.Loses))
	}
}

// What goes by a choice is what survives without it, and is replaced by it.
func TestWhatGoesByAChoice(t *testing.T) {
	gone := 0
	for seed := int64(0); seed < 3000; seed++ {
		s, group, answer := drawn(seed)
		name, after := &group.Names[0], &forecast.Answer{Ends: []forecast.End{s.end(len(group.Devices), "a", "b")}}
		one, other, due := newJudge(group, answer, nil), newJudge(group, after, nil), []Thing(nil)
		for _, thing := range thingsNow(anyDevices, name) {
			thing := thing
			if thing.Type != forecast.Directory && one.survives("a", thing) && !other.survives("a", thing) && other.wayOf(name, thing) != byNothing {
				thing.Versions = other.versionsOf("a", thing)
				due = append(due, thing)
			}
		}
		choice := Choice{}
		choice.takeReplaced(name, one, other)
		if choice.Gone != int64(len(choice.Goes)) || (len(due) > 0) != (choice.Gone == 1) || choice.Gone == 1 && !reflect.DeepEqual(choice.Goes[0], Loss{part.Bytes("a"), due}) {
			t.Fatalf("%d: %+v, not %+v", seed, choice, due)
		}
		if gone += len(due); len(due) > 0 {
			choice.Goes = make([]Loss, MostListed)
			if choice.takeReplaced(name, one, other); choice.Gone != 2 || len(choice.Goes) != MostListed {
				t.Fatalf("%d: %d gone, %d listed", seed, choice.Gone, len(choice.Goes))
			}
		}
	}
	if gone < 10 {
		t.Errorf("%d went: too few were drawn", gone)
	}
}

// Where a budget is spent, or it comes to no end, nobody knows what a choice does.
func TestChoicesNobodyKnows(t *testing.T) {
	row := calm("a", 2, 1)
	changedAt(row, 1, 70, true)
	from := read.NewRows(folderOf("send-receive", "receive-only"))
	from.Take(row)
	world := from.World()
	choices := newChoices(forecast.New(forecast.Budget{States: 1, Walks: 0, Total: 1, Most: 1}), nil)
	choices.forecaster.OfGroup(world.Devices, world.Copied().Names)
	choices.add(&world, []Name{{Name: "a"}}, nil, chosen{Revert, 1})
	choices.add(&world, []Name{{Name: "b"}, {Name: "c"}}, nil, chosen{Revert, 1})
	if all := choices.byDevices(); len(all) != 1 || all[0].Unknown != 3 || all[0].Names != 0 || all[0].Device != idOf(1) {
		t.Errorf("%+v", all)
	}
	choices.all = lists.Grouped[chosen, Choice]{}
	for place, step := range []chosen{{Both, 31}, {Revert, 0}, {Override, 1}, {Both, 0}} {
		*choices.all.Of(step) = Choice{Act: step.act, Device: idOf(step.member), Names: int64(place % 2), Unknown: int64(place % 3)}
	}
	var order []chosen
	for _, choice := range choices.byDevices() {
		order = append(order, chosen{choice.Act, memberOf(choice.Device)})
	}
	if due := []chosen{{Revert, 0}, {Both, 0}, {Override, 1}}; !reflect.DeepEqual(order, due) {
		t.Errorf("%+v, not %+v", order, due)
	}
}
