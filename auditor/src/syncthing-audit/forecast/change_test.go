package forecast

import (
	"fmt"
	"math/rand"
	"path"
	"reflect"
	"strings"
	"testing"
)

// plainDisks are disks by the paths of what stands on them.
type plainDisks []map[string]Node

func (p plainDisks) put(device int, name string, what Node, known map[string]bool) {
	for above := path.Dir(name); above != "." && known[above]; above = path.Dir(above) {
		if _, is := p[device][above]; is {
			break
		}
		p[device][above] = Node{Type: Directory, Mode: 0o755}
	}
	p[device][name] = what
}

// What is put on the disks of a world, copied and taken away is what a plain list of paths says. A copied world is another one.
func TestWhatIsChangedOnDisks(t *testing.T) {
	names := []string{"a", "d", "d/a", "d/e", "d/e/b", "da", "x/y"}
	rooms := map[bool]int{}
	for seed := int64(0); seed < 300; seed++ {
		random := rand.New(rand.NewSource(seed))
		world, plain, known := World{Devices: make([]Device, 2)}, plainDisks{{}, {}}, map[string]bool{}
		for step := 0; step < 12; step++ {
			device, name := random.Intn(2), names[random.Intn(len(names))]
			before := world.Copied()
			switch random.Intn(4) {
			case 0:
				world.Remove(device, name)
				for there := range plain[device] {
					if there == name || strings.HasPrefix(there, name+"/") {
						delete(plain[device], there)
					}
				}
			case 1:
				world.PutBelow(device, name, 1-device)
				for there, what := range plain[1-device] {
					if strings.HasPrefix(there, name+"/") {
						plain[device][there] = what
					}
				}
			default:
				what := Node{Type: []Type{File, Directory}[random.Intn(2)], Time: int64(step)}
				world.Put(device, name, what)
				plain.put(device, name, what, known)
				known[name] = true
			}
			for place := range before.Names {
				for at, what := range before.Names[place].Disk {
					if what != nil && &before.Names[place].Disk[at] == &world.Names[place].Disk[at] {
						t.Fatal("a copied world has the disks of the first")
					}
				}
			}
			for at := range plain {
				for _, name := range names {
					what, is := plain[at][name]
					if found := world.At(at, name); (found != nil) != is || is && *found != what {
						t.Fatalf("%d: %s on %d: %+v, not %+v", seed, name, at, found, what)
					}
					hasRoom := true
					for above := path.Dir(name); above != "."; above = path.Dir(above) {
						if there, is := plain[at][above]; is && there.Type != Directory {
							hasRoom = false
						}
					}
					if world.HasRoom(at, name) != hasRoom {
						t.Fatalf("%d: %s on %d has room: %v", seed, name, at, !hasRoom)
					}
					rooms[hasRoom]++
				}
			}
		}
		for _, name := range world.Names {
			if len(name.Own) != 2 || len(name.Disk) != 2 || len(name.Views) != 2 || len(name.Views[1]) != 2 {
				t.Fatalf("%+v", name)
			}
		}
	}
	if rooms[true] < 100 || rooms[false] < 100 {
		t.Errorf("%v: too few were drawn", rooms)
	}
}

// A record is below another one where no counter of its version is greater, and some is less.
func TestVersionsBelowOthers(t *testing.T) {
	pairs := map[string]int{}
	for seed := int64(0); seed < 500; seed++ {
		random := rand.New(rand.NewSource(seed))
		var records [2]Record
		isLess, isGreater := false, false
		values := [2][3]uint64{}
		for device := 0; device < 3; device++ {
			for at := range records {
				if values[at][device] = uint64(random.Intn(3)); values[at][device] > 0 {
					records[at].Version = append(records[at].Version, Counter{Device: uint64(device + 1), Value: values[at][device]})
				}
			}
			isLess, isGreater = isLess || values[0][device] < values[1][device], isGreater || values[0][device] > values[1][device]
		}
		if is := records[0].IsBelow(&records[1]); is != (isLess && !isGreater) {
			t.Fatalf("%v below: %v", values, is)
		}
		if is := records[0].IsAtMost(&records[1]); is != !isGreater {
			t.Fatalf("%v at most: %v", values, is)
		}
		pairs[fmt.Sprint(isLess, isGreater)]++
	}
	if len(pairs) != 4 {
		t.Error(pairs)
	}
}

// Of many names, or on many devices, fewer states and walks are tried, in step with what each costs; never fewer than five walks.
func TestTheBudgetOfManyNames(t *testing.T) {
	budget := Budget{States: 1800, Walks: 100, Total: 7, Most: 8}
	for _, row := range []struct {
		names, devices int
		due            Budget
	}{
		{1, 1, budget}, {16, 6, budget}, {32, 6, Budget{900, 50, 7, 8}}, {17, 2, Budget{1694, 94, 7, 8}}, {1, 12, Budget{450, 25, 7, 8}}, {32, 12, Budget{225, 12, 7, 8}},
		{1600, 6, Budget{18, 5, 7, 8}}, {320, 6, Budget{90, 5, 7, 8}}, {256, 6, Budget{112, 6, 7, 8}}, {1, 7, Budget{1322, 73, 7, 8}},
	} {
		if found := budget.of(row.names, row.devices); found != row.due {
			t.Errorf("%d names on %d: %+v, not %+v", row.names, row.devices, found, row.due)
		}
	}
	if few := (Budget{States: 10, Walks: 2}); few.of(16, 6) != few || few.of(17, 6).Walks != 5 {
		t.Errorf("of two walks: %+v, %+v", few.of(16, 6), few.of(17, 6))
	}
}

// A symlink has no time and no mode, as Syncthing compares neither; one that is deleted has the time of that.
func TestTheTimeOfASymlink(t *testing.T) {
	of := func(name string, time int64, isDeleted bool) Name {
		record := &Record{Type: Symlink, Time: time, Mode: 0o644, Deleted: isDeleted, Version: []Counter{{10, 1}}}
		return Name{Name: name, Own: []*Record{record, record, record}, Views: [][]*Record{make([]*Record, 3), make([]*Record, 3), make([]*Record, 3)}, Disk: make([]*Node, 3)}
	}
	_, s := loaded(of("a", 5, false), of("b", 7, false), of("c", 9, true), of("d", 11, true))
	for n := 0; n < 2; n++ {
		if own := s.own(0, n); own.time != 0 || own.mode != NoMode {
			t.Errorf("%+v", own)
		}
	}
	if s.own(0, 2).time >= s.own(0, 3).time {
		t.Error("deletions have no times")
	}
}

// A world is answered group by group, each in the words of its names.
func TestAWorldIsAnsweredByGroups(t *testing.T) {
	world := World{Devices: three(), Names: []Name{inStep("d/b", "x", 3, 1).changed(0, "new", 70), inStep("c", "same", 3, 1), inStep("d", "y", 3, 1), inStep("a", "same", 3, 1)}}
	forecaster := New(Usual)
	answers := forecaster.Of(world)
	groups := world.Groups()
	if len(groups) != 2 || len(answers) != 2 {
		t.Fatalf("%d groups, %d answers", len(groups), len(answers))
	}
	for place, group := range groups {
		due := New(Usual).OfGroup(group.Devices, group.Names)
		if len(group.Devices) != 3 || !reflect.DeepEqual(answers[place], due) || len(due.Names) != 2 || len(due.Ends) == 0 {
			t.Errorf("%+v, not %+v", answers[place], due)
		}
	}
	if Shape(world.Devices, groups[0].Names) == Shape(world.Devices, groups[1].Names) {
		t.Error("a group in which something changed is as one in which nothing did")
	}
}

// All orders of up to four are tried, each once; of more the last ones stay where they are.
func TestAllOrdersOfFew(t *testing.T) {
	for count, due := range []int{1, 1, 2, 6, 24, 24, 24} {
		places := make([]int, count)
		for place := range places {
			places[place] = place * 3
		}
		seen := map[string]bool{}
		for _, order := range permutations(places) {
			if seen[fmt.Sprint(order)] = true; len(order) != count {
				t.Errorf("%v", order)
			}
			sum := 0
			for place, moved := range order {
				if sum += moved; place >= 4 && moved != places[place] {
					t.Errorf("%v: the last ones moved", order)
				}
			}
			if sum != 3*count*(count-1)/2 {
				t.Errorf("%v isn't an order of %v", order, places)
			}
		}
		if len(seen) != due {
			t.Errorf("%d orders of %d, not %d", len(seen), count, due)
		}
	}
}

// Of what a conflict copy is a copy is told by its name.
func TestRootsOfCopies(t *testing.T) {
	for name, due := range map[string]string{
		"a.txt": "", "a.sync-conflict-20240102-030405-ABCDEFG.txt": "a.txt", "d/a.sync-conflict-20240102-030405-ABCDEFG": "d/a", "a.sync-conflict-2024": "",
		"d.sync-conflict-20240102-030405-ABCDEFG/a": "", "a.sync-conflict-20240102-030405-.txt": "a.txt", "a.sync-conflict-20240102-030405": "",
		"a.sync-conflict-.0123456789abcdef": "a.0123456789abcdef", "a.sync-conflict-.0123456789abcd": "", "a.sync-conflict-.0123456789abcde": "a.0123456789abcde",
		"a.sync-conflict-20240102-030405-ABCDEFG.sync-conflict-20250102-030405-HIJKLMN.txt": "a.sync-conflict-20240102-030405-ABCDEFG.txt",
	} {
		if root := RootOfCopy(name); root != due {
			t.Errorf("%s: %q, not %q", name, root, due)
		}
	}
}
