package forecast

import (
	"reflect"
	"testing"
)

// newerOn has the second and the third device have a newer version of a file, of which all know.
func newerOn(name Name, text string) Name {
	newer := &Record{Type: File, Version: []Counter{{10, 5}, {20, 7}}, Time: 6, Content: Content{int64(len(text)), text}, Mode: 0o644}
	for _, i := range []int{1, 2} {
		name.Own[i], name.Views[i][3-i], name.Views[0][i] = newer, newer, newer
		name.Disk[i] = &Node{File, 6, newer.Content, "", 0o644}
	}
	return name
}

// running gives the first state of a world in which all run that scanned nothing.
func running(names ...Name) (*loader, *state) {
	l, s := loaded(names...)
	states, _ := s.withLists()
	states[0].on = states[0].may
	return l, states[0]
}

// A pull goes otherwise by which source is asked first where one has the bytes and another one hasn't, and in one way only where all have them, or none.
func TestWaysOfAPull(t *testing.T) {
	for why, row := range map[string]struct {
		rotten []int
		texts  []string // of the device that pulls, and of what the others record
	}{
		"all have them":     {nil, []string{"newer newer newer"}},
		"the first hasn't":  {[]int{1}, []string{"newer newer newer", "newer wrong newer"}},
		"the second hasn't": {[]int{2}, []string{"newer newer newer", "newer newer wrong"}},
		"none has":          {[]int{1, 2}, []string{"old wrong wrong"}},
	} {
		name := newerOn(inStep("a", "old", 3, 5), "newer")
		for _, i := range row.rotten {
			name.changed(i, "wrong", 6)
		}
		l, s := running(name)
		texts := map[string]bool{}
		ways, _ := s.outcomes(func(s *state) { s.pullOn(0) })
		for _, way := range ways {
			texts[l.content[way.at(0, 0).content].Hash+" "+l.content[way.own(1, 0).content].Hash+" "+l.content[way.own(2, 0).content].Hash] = true
		}
		due := map[string]bool{}
		for _, text := range row.texts {
			due[text] = true
		}
		if !reflect.DeepEqual(texts, due) || len(ways) != len(due) {
			t.Errorf("%s: %d ways to %v, not %v", why, len(ways), texts, due)
		}
	}
}

// What is moved away for another file is scanned at the end of a pull, alone, and stands there as a copy that no index has yet.
func TestWhatIsMovedAwayIsScanned(t *testing.T) {
	for most, isKept := range map[int]bool{10: true, 1: true, -1: true, 0: false} {
		devices := three()
		devices[0].MaxConflicts = most
		names := []Name{inStep("a.txt", "old", 3, 5), inStep("b.txt", "other", 3, 5)}
		l := newLoader(devices, names)
		p := l.start(names).newPull(0)
		what := *p.at(0, 0)
		p.moveAway(0)
		if p.at(0, 0).isThere() || !p.at(0, 1).isThere() || len(p.names) > 2 != isKept {
			t.Errorf("%d: %d names, %+v", most, len(p.names), p.at(0, 0))
		}
		if isKept && (!reflect.DeepEqual(p.scans, map[int]bool{2: true}) || *p.at(0, 2) != what || p.own(0, 2).isThere() || p.names[2].root != 0 || !p.names[2].isCopy) {
			t.Errorf("%d: %v are scanned; %+v", most, p.scans, p.names)
		}
		if !isKept && len(p.scans) > 0 {
			t.Errorf("%v are scanned", p.scans)
		}
	}
}

// A file doesn't take the place of a directory with something in it, also where its bytes are those of a file that is to be deleted: that is tried again later.
func TestARenameOverAFullDirectory(t *testing.T) {
	directory := inStep("d", "", 3, 5)
	for i := range directory.Own {
		entry := &Record{Type: Directory, Version: []Counter{{10, 5}}, Time: 5, Mode: 0o755}
		directory.Own[i], directory.Disk[i] = entry, &Node{Type: Directory, Time: 5, Mode: 0o755}
		for j := range directory.Views {
			if j != i {
				directory.Views[j][i] = entry
			}
		}
	}
	below, file := inStep("d/a", "below", 3, 5), inStep("f", "moved", 3, 5)
	directory.changed(0, "moved", 70)
	below.Disk[0], file.Disk[0] = nil, nil
	_, s := running(directory, below, file)
	s.scan(0, everything)
	s.send(0, 1)
	p := s.newPull(1)
	queue := p.takeOthers([]int{0, 1, 2})
	if !reflect.DeepEqual(queue, []int{0}) || !p.due[2] {
		t.Fatalf("%v are taken, %v deleted", queue, p.due)
	}
	if p.rename(2, 0) || len(p.jobs) > 0 || p.at(1, 0).kind != Directory {
		t.Errorf("it is renamed: %+v, %+v", p.jobs, p.at(1, 0))
	}
	answer := New(Budget{States: 1, Walks: 5, Total: 1}).OfGroup(three(), []Name{directory, below, file})
	for _, end := range answer.Ends {
		if text, _ := textAt(end, 1); len(end.Disks[1]) != 1 || text != "moved" || end.Disks[1][0].Name != "d" {
			t.Errorf("%+v", end)
		}
	}
}

// Where as much was done as may be, nothing more is; where one thing less was, more is.
func TestExactlyTheBudget(t *testing.T) {
	groups := [][]Name{{inStep("a", "old", 3, 5).changed(0, "new", 70)}, {inStep("a", "old", 3, 5)}}
	first := New(Budget{States: 100, Walks: 2, Total: 1000})
	first.OfGroup(three(), groups[0])
	for more, isOver := range map[int]bool{0: true, 1: false} {
		next := New(Budget{States: 100, Walks: 2, Total: 1000, Most: first.done + more})
		if next.OfGroup(three(), groups[0]).IsOver || next.OfGroup(three(), groups[1]).IsOver != isOver {
			t.Errorf("%d more than is done: it is over: %v", more, !isOver)
		}
	}
}

// newOn gives a file that stands on one device's disk alone, and that no index has.
func newOn(device int, name, text string) Name {
	file := inStep(name, text, 3, 70)
	for i := range file.Own {
		file.Own[i], file.Views[i] = nil, make([]*Record, 3)
		if i != device {
			file.Disk[i] = nil
		}
	}
	return file
}

// An end tells what each device needs, though there is more than one order in which the device may try to take it.
func TestAnEndTellsWhatIsNeeded(t *testing.T) {
	file := inStep("f", "moved", 3, 5)
	file.Disk[0] = nil
	_, s := running(file, newOn(0, "x", "moved"), newOn(0, "y", "moved"))
	s.scan(0, everything)
	s.send(0, 1)
	if ways, _ := s.outcomes(func(s *state) { s.pullOn(1) }); len(ways) != 2 {
		t.Errorf("there are %d orders", len(ways))
	}
	end, needed := s.numberedEnd(3), map[int]int{}
	for place, stuck := range end.stuck {
		if stuck.Device == 1 {
			needed[end.names[place]]++
		}
	}
	if !reflect.DeepEqual(needed, map[int]int{0: 1, 1: 1, 2: 1}) {
		t.Errorf("%v are needed: %+v", needed, end.stuck)
	}
}

// A directory stays where it holds what .stignore keeps out, and goes elsewhere.
func TestADirectoryThatHoldsWhatIsIgnored(t *testing.T) {
	name := inStep("d", "", 3, 5)
	for i := range name.Own {
		entry := &Record{Type: Directory, Version: []Counter{{10, 5}}, Mode: 0o755}
		name.Own[i], name.Disk[i] = entry, &Node{Type: Directory, Mode: 0o755}
		for j := range name.Views[i] {
			if j != i {
				name.Views[i][j] = entry
			}
		}
	}
	name.Disk[0] = nil
	for holds, due := range map[Places][]Stuck{0: nil, 1 << 1: {{1, "d", HasIgnored}}, 1<<1 | 1<<2: {{1, "d", HasIgnored}, {2, "d", HasIgnored}}} {
		name.Holds = holds
		answer := New(Budget{States: 1000, Walks: 5, Total: 1000}).OfGroup(three(), []Name{name})
		if len(answer.Ends) != 1 || !answer.IsAll || !reflect.DeepEqual(answer.Ends[0].Stuck, due) {
			t.Fatalf("%b: %+v", holds, answer)
		}
		if settled := Settle(World{three(), []Name{name}}, []int{0, 1}, 1000); settled.Names[0].Holds != holds {
			t.Errorf("%b: then %+v", holds, settled.Names[0])
		}
		for i, disk := range answer.Ends[0].Disks {
			if stays := holds.Has(i); stays != (len(disk) == 1) {
				t.Errorf("%b: device %d has %+v", holds, i, disk)
			}
		}
	}
}
