package forecast

import (
	"fmt"
	"math/rand"
	"reflect"
	"testing"
)

// three devices that send and receive.
func three() []Device {
	return []Device{{Release: V1_29, Number: 30, MaxConflicts: 10}, {Release: V1_29, Number: 10, MaxConflicts: 10}, {Release: V1_29, Number: 20, MaxConflicts: 10}}
}

// inStep gives a file that all have.
func inStep(name, text string, count int, time int64) Name {
	file := Name{Name: name}
	content := Content{int64(len(text)), text}
	for i := 0; i < count; i++ {
		entry := &Record{Type: File, Version: []Counter{{10, uint64(time)}}, Time: time, Content: content, Mode: 0o644}
		file.Own = append(file.Own, entry)
		file.Views = append(file.Views, make([]*Record, count))
		for j := 0; j < count; j++ {
			if j != i {
				file.Views[i][j] = entry
			}
		}
		file.Disk = append(file.Disk, &Node{File, time, content, "", 0o644})
	}
	return file
}

// changed changes a file on a disk.
func (n Name) changed(i int, text string, time int64) Name {
	n.Disk[i] = &Node{File, time, Content{int64(len(text)), text}, "", 0o644}
	return n
}

func textAt(end End, i int) (text string, copies []string) {
	for _, place := range end.Disks[i] {
		if place.IsCopy {
			copies = append(copies, place.Node.Content.Hash)
		} else {
			text = place.Node.Content.Hash
		}
	}
	return text, copies
}

// Of two changes the later one prevails, and the other one is copied; the answer has the names, bytes and times of this world.
func TestTheLaterChangePrevails(t *testing.T) {
	answer := New(Usual).OfGroup(three(), []Name{inStep("a.txt", "old", 3, 5).changed(0, "of 0", 70).changed(1, "of 1", 60)})
	if !answer.IsAll || len(answer.Ends) != 1 || !reflect.DeepEqual(answer.Names, []string{"a.txt"}) {
		t.Fatalf("%+v", answer)
	}
	for i := range three() {
		if text, copies := textAt(answer.Ends[0], i); text != "of 0" || !reflect.DeepEqual(copies, []string{"of 1"}) {
			t.Error(i, text, copies)
		}
	}
	if place := answer.Ends[0].Disks[2][0]; place.Node.Time != 70 || place.Name != "a.txt" || place.Node.Mode != 0o644 {
		t.Errorf("%+v", place)
	}
}

// Names that are alike have one forecast, in words of their own. One that differs in what counts has another.
func TestNamesThatAreAlike(t *testing.T) {
	forecaster := New(Usual)
	for name := int64(1); name < 50; name++ {
		old := fmt.Sprint("old", name)
		answer := forecaster.OfGroup(three(), []Name{inStep(fmt.Sprint("name", name), old, 3, name).changed(int(name)%2, fmt.Sprint("new", name/7*7), 100+name)})
		for i := range three() {
			if text, copies := textAt(answer.Ends[0], i); len(answer.Ends) != 1 || text != fmt.Sprint("new", name/7*7) || copies != nil {
				t.Fatalf("%d %+v", name, answer)
			}
		}
	}
	if len(forecaster.known) != 4 {
		t.Error("there are four kinds of these, by the device that changed it, and by whether the size is as it was:", len(forecaster.known))
	}
}

// Names below one directory, and files with the same bytes, hang together.
func TestGroups(t *testing.T) {
	var found [][]string
	of := []Name{inStep("d/b", "x", 2, 1), inStep("c", "same", 2, 1), inStep("d", "y", 2, 1), inStep("e", "", 2, 1), inStep("f", "", 2, 1),
		inStep("a", "same", 2, 1)}
	for _, group := range split(of) {
		var names []string
		for place := range group {
			names = append(names, group[place].Name)
		}
		found = append(found, names)
	}
	if due := [][]string{{"a", "c"}, {"d", "d/b"}, {"e"}, {"f"}}; !reflect.DeepEqual(found, due) {
		t.Error(found)
	}
}

// Where there are more states than the budget has, walks find the end, and the answer says so.
func TestWalks(t *testing.T) {
	names := []Name{inStep("a.txt", "old", 3, 5).changed(0, "of 0", 70).changed(1, "of 1", 60)}
	answer := New(Budget{States: 3, Walks: 20, Total: 100}).OfGroup(three(), names)
	if answer.IsAll || answer.Orders != 20 || answer.Endless != 0 || len(answer.Ends) != 1 {
		t.Fatalf("%+v", answer)
	}
	if all := New(Usual).OfGroup(three(), names); !reflect.DeepEqual(all.Ends[0].Disks, answer.Ends[0].Disks) {
		t.Errorf("%+v %+v", all, answer)
	}
}

// A device that only sends doesn't take a change: that is told, with the reason.
func TestStuck(t *testing.T) {
	devices := three()
	devices[2].Kind = SendOnly
	answer := New(Usual).OfGroup(devices, []Name{inStep("a", "old", 3, 5).changed(0, "new", 70)})
	if due := []Stuck{{Device: 2, Name: "a", Why: OnlySends}}; len(answer.Ends) != 1 || !reflect.DeepEqual(answer.Ends[0].Stuck, due) {
		t.Fatalf("%+v", answer)
	}
}

// Once the budget of all groups is spent, only small ones have all orders tried.
func TestTheWholeBudget(t *testing.T) {
	forecaster := New(Budget{States: 4000, Walks: 10, Total: 300})
	later := inStep("b", "old", 3, 5).changed(0, "of 0", 60).changed(1, "of 1", 70)
	earlier := inStep("a", "old", 3, 5).changed(0, "of 0", 70).changed(1, "of 1", 60)
	single := inStep("c", "old", 3, 5).changed(0, "of 0", 70)
	for place, due := range []struct {
		name  Name
		isAll bool
	}{{earlier, true}, {later, false}, {earlier, true}, {single, true}} {
		answer := forecaster.OfGroup(three(), []Name{due.name})
		if answer.IsAll != due.isAll || (answer.Orders == 0) != due.isAll || len(answer.Ends) != 1 || answer.States < 10 {
			t.Errorf("%d: %+v", place, answer)
		}
	}
}

// Many names at fault: on each device each may have been changed, lost or have rotted, and one device may be behind, at times of their own.
func BenchmarkNames(b *testing.B) {
	random := rand.New(rand.NewSource(1))
	names := make([]Name, 10000)
	for place := range names {
		names[place] = faulty(inStep(fmt.Sprint("name", place), fmt.Sprint("old", place), 3, 1+random.Int63n(1000)), random)
	}
	b.ResetTimer()
	for round := 0; round < b.N; round++ {
		forecaster, states, walked := New(Usual), 0, 0
		for _, answer := range forecaster.Of(World{Devices: three(), Names: append([]Name{}, names...)}) {
			states += answer.States
			if !answer.IsAll {
				walked++
			}
		}
		b.ReportMetric(float64(len(forecaster.known)), "kinds")
		b.ReportMetric(float64(states), "states")
		b.ReportMetric(float64(walked), "walked")
	}
}

// faulty changes a name that is in step.
func faulty(name Name, random *rand.Rand) Name {
	if behind := random.Intn(6); behind < 3 {
		newer := *name.Own[0]
		newer.Version, newer.Time, newer.Content = []Counter{{10, newer.Version[0].Value}, {30, 7}}, 1500, Content{6, "newer " + name.Name}
		for i := range name.Own {
			if i != behind {
				name.Own[i], name.Disk[i] = &newer, &Node{File, newer.Time, newer.Content, "", newer.Mode}
			}
			for j := range name.Own {
				if i != behind && j != behind && i != j {
					name.Views[i][j] = &newer
				}
			}
		}
	}
	for i := range name.Disk {
		switch random.Intn(8) {
		case 0, 1:
			name.changed(i, fmt.Sprint("new", name.Name, i), 2000+random.Int63n(1000))
		case 2:
			name.changed(i, fmt.Sprint("rot", name.Name, i), name.Own[i].Time)
		case 3:
			name.Disk[i] = nil
		}
	}
	return name
}
