package forecast

import (
	"fmt"
	"reflect"
	"testing"
)

// loaded gives the first state of three devices and these names.
func loaded(names ...Name) (*loader, *state) {
	l := newLoader(three(), names)
	return l, l.start(names)
}

// A device tells a record that doesn't count as invalid, a local change without its version. Others lack what they know at another version or flag.
func TestWhatDevicesTellOneAnother(t *testing.T) {
	for flag, due := range map[Flag]struct {
		flag       Flag
		hasVersion bool
	}{Valid: {Valid, true}, LocalChange: {Invalid, false}, Invalid: {Invalid, true}, MustBeHashed: {Invalid, true}} {
		name := inStep("a", "text", 3, 5)
		changed := *name.Own[0]
		changed.Flag = flag
		name.Own[0] = &changed
		_, s := loaded(name)
		if told := s.told(0, 0); told.flag != due.flag || (told.version != 0) != due.hasVersion {
			t.Errorf("%d: %+v", flag, told)
		}
		for other := 1; other < 3; other++ {
			if is := s.isBehind(0, other); is != (flag != Valid) {
				t.Errorf("%d: %d is behind: %v", flag, other, is)
			}
			s.send(0, other)
			if s.isBehind(0, other) || s.lacks(0, other, 0) || s.isBehind(1, 0) {
				t.Errorf("%d: %d is behind still", flag, other)
			}
		}
	}
	name := inStep("a", "text", 3, 5)
	newer, unheard := *name.Own[0], inStep("b", "other", 3, 5)
	newer.Version = []Counter{{10, 6}}
	name.Own[0], unheard.Views[2][1], unheard.Own[0] = &newer, nil, nil
	_, s := loaded(name, unheard)
	for pair, due := range map[[2]int]bool{{0, 1}: true, {0, 2}: true, {1, 0}: false, {1, 2}: true, {2, 0}: false, {2, 1}: false} {
		if is := s.isBehind(pair[0], pair[1]); is != due {
			t.Errorf("%v: %v", pair, is)
		}
	}
}

// In which order devices told their records matters where three versions of a name are known, and only there.
func TestOrdersOfTelling(t *testing.T) {
	concurrent := func(count int) Name {
		name := inStep("a", "text", 3, 5)
		for i := 0; i < count; i++ {
			own := *name.Own[i]
			own.Version = append([]Counter{{uint64(i + 1), 1}}, own.Version...)
			own.Content = Content{3, fmt.Sprint("of ", i)}
			name.Own[i] = &own
			for j := range name.Views {
				if j != i {
					name.Views[j][i] = &own
				}
			}
		}
		return name
	}
	for count, due := range []int{1, 1, 6, 6} {
		_, s := loaded(concurrent(count))
		if orders := s.ordersAt(0); len(orders) != due {
			t.Errorf("%d changes: %v", count, orders)
		}
	}
	_, s := loaded(concurrent(1), concurrent(1))
	if orders := s.ordersAt(1); !reflect.DeepEqual(orders, [][]int{{1, 2, 0}}) {
		t.Error(orders)
	}
}

// The first reason why a name isn't taken is kept. A file whose directory is to be fetched, too, depends on its order, as does what may be renamed.
func TestWhatAPullNotes(t *testing.T) {
	_, s := loaded(inStep("d", "x", 3, 5), inStep("d/a", "y", 3, 5), inStep("e", "z", 3, 5), inStep("f", "z", 3, 5), inStep("g", "v", 3, 5))
	p := s.newPull(1)
	p.note(0, NoReason)
	p.note(1, NotEmpty)
	p.note(1, NoSource)
	if !reflect.DeepEqual(p.errors, map[int]Why{1: NotEmpty}) {
		t.Errorf("%v", p.errors)
	}
	for place, row := range []struct {
		queue []int
		held  []int // names whose bytes something to be deleted has
		due   map[int]bool
	}{
		{[]int{0, 1, 2}, nil, map[int]bool{0: true, 1: true}}, {[]int{1, 2}, nil, map[int]bool{}}, {[]int{0, 2}, nil, map[int]bool{}}, {[]int{2, 3}, nil, map[int]bool{}},
		{[]int{2, 3, 4}, []int{2}, map[int]bool{2: true, 3: true}}, {[]int{2, 4}, []int{2}, map[int]bool{}},
	} {
		p := s.newPull(1)
		p.old, _ = p.old.withList(1)
		for _, n := range row.held {
			p.buckets[p.wanted(n).content] = []int{9}
		}
		if found := p.dependOnOrder(row.queue); !reflect.DeepEqual(found, row.due) {
			t.Errorf("%d: %v, not %v", place, found, row.due)
		}
	}
}

// withList gives the state with the version lists of a device.
func (s *state) withList(i int) (*state, bool) {
	orders := s.ordersAt(i)
	return s.filled(i, orders[0]), len(orders) == 1
}

// Of the conflict copies of a name a device keeps as many as it is to: all of them below 0.
func TestHowManyCopiesAreKept(t *testing.T) {
	for most, due := range map[int]map[int]bool{-1: {2: true}, 10: {2: true}, 2: {2: true}, 1: {1: true, 2: true}, 0: {0: true}} {
		devices := three()
		for i := range devices {
			devices[i].MaxConflicts = most
		}
		answer := New(Budget{States: 100, Walks: 100, Total: 1000}).OfGroup(devices, []Name{inStep("a.txt", "old", 3, 5).changed(0, "of 0", 60).changed(1, "of 1", 70).changed(2, "of 2", 80)})
		found := map[int]bool{}
		for _, end := range answer.Ends {
			text, copies := textAt(end, 0)
			if found[len(copies)] = true; text != "of 2" {
				t.Errorf("%d: %q prevails", most, text)
			}
		}
		if !reflect.DeepEqual(found, due) {
			t.Errorf("at most %d: ends have %v copies, not %v", most, found, due)
		}
	}
}

// A revert takes away what only the device that receives has: a directory with all in it. The end says nothing more of it.
func TestARevertOfANewDirectory(t *testing.T) {
	devices := three()
	devices[1].Kind = ReceiveOnly
	added := func(name string, kind Type) Name {
		named := Name{Name: name, Own: make([]*Record, 3), Disk: make([]*Node, 3), Views: [][]*Record{make([]*Record, 3), make([]*Record, 3), make([]*Record, 3)}}
		named.Disk[1] = &Node{Type: kind, Time: 5, Mode: 0o755}
		if kind == File {
			named.Disk[1].Content = Content{3, "new"}
		}
		return named
	}
	for _, commands := range [][]Command{nil, {{Device: 1}}} {
		answer := New(Usual).OfGroup(devices, []Name{added("d", Directory), added("d/a", File)}, commands...)
		if len(answer.Ends) != 1 {
			t.Fatalf("%+v", answer)
		}
		end := answer.Ends[0]
		if isGone := len(end.Disks[1]) == 0 && len(end.Apart) == 0; isGone != (len(commands) > 0) || len(end.Disks[0])+len(end.Disks[2]) > 0 {
			t.Errorf("%v: %+v", commands, end)
		}
	}
}

// A copy that the model makes has a name of its own, by which Syncthing takes it for a copy of what it is one of.
func TestNamesOfCopiesThatAreMade(t *testing.T) {
	names := []Name{{Name: "a.txt"}, {Name: "d/b"}}
	for _, clock := range []int64{0, 7, 123456789} {
		b := back{loader: &loader{machine: &machine{names: []name{{}, {}, {root: 0, device: 1}, {root: 0, device: 1}, {root: 1, device: 2}}}}, clock: clock}
		seen, last := map[string]bool{}, ""
		for n, root := range []string{"a.txt", "d/b", "a.txt", "a.txt", "d/b"} {
			called := b.nameOf(n, names)
			if n < 2 && called != root || n >= 2 && RootOfCopy(called) != root || seen[called] {
				t.Errorf("%d: %s", n, called)
			}
			if seen[called] = true; n == 3 && called < last {
				t.Errorf("%s comes after %s", last, called)
			}
			last = called
		}
	}
}

// A directory on one device alone is in step with itself.
func TestADirectoryOfOneDevice(t *testing.T) {
	directory := Name{Name: "d", Own: []*Record{{Type: Directory, Mode: 0o755}}, Views: [][]*Record{{nil}}, Disk: []*Node{{Type: Directory, Mode: 0o755}}}
	if !directory.isDirectoryInStep() {
		t.Error("it isn't")
	}
	if found := len(split([]Name{directory, inStep("d/a", "a", 1, 1), inStep("d/b", "b", 1, 1)})); found != 3 {
		t.Errorf("%d groups", found)
	}
}

// A device that only sends doesn't take what it needs: a change or a deletion. Only a deletion that it ignores it doesn't need.
func TestWhatASenderDoesNotTake(t *testing.T) {
	for place, row := range []struct {
		ignoresDeletions, isDeleted bool
		due                         []Stuck
	}{
		{false, false, []Stuck{{Device: 2, Name: "a", Why: OnlySends}}}, {true, false, []Stuck{{Device: 2, Name: "a", Why: OnlySends}}},
		{false, true, []Stuck{{Device: 2, Name: "a", Why: OnlySends}}}, {true, true, nil},
	} {
		devices := three()
		devices[2].Kind, devices[2].IgnoreDelete = SendOnly, row.ignoresDeletions
		name := inStep("a", "old", 3, 5).changed(0, "new", 70)
		if row.isDeleted {
			name.Disk[0] = nil
		}
		answer := New(Usual).OfGroup(devices, []Name{name})
		if len(answer.Ends) != 1 || !reflect.DeepEqual(answer.Ends[0].Stuck, row.due) {
			t.Errorf("%d: %+v, not %+v", place, answer.Ends, row.due)
		}
	}
}

// A counter that a version hasn't is 0.
func TestCountersOfAVersion(t *testing.T) {
	version := []Counter{{10, 1}, {30, 7}}
	for device, due := range map[uint64]uint64{5: 0, 10: 1, 20: 0, 30: 7, 40: 0} {
		if value := counterOf(version, device); value != due {
			t.Errorf("%d: %d, not %d", device, value, due)
		}
	}
}
