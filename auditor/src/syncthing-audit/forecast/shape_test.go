package forecast

import (
	"reflect"
	"testing"
)

// alike gives a world that is like another one: its times, counters and devices' numbers are others in the same order, and its bytes, sizes and targets others that
// differ as those do.
func alike(world World) World {
	version := func(counters []Counter) []Counter {
		var other []Counter
		for _, counter := range counters {
			other = append(other, Counter{counter.Device*3 + 1, counter.Value * 10})
		}
		return other
	}
	record := func(r *Record) *Record {
		if r == nil {
			return nil
		}
		return &Record{Type: r.Type, Deleted: r.Deleted, Flag: r.Flag, Version: version(r.Version), Time: r.Time * 7, Content: otherContent(r.Content), Target: otherTarget(r.Target), Mode: r.Mode}
	}
	other := World{}
	for _, device := range world.Devices {
		device.ID, device.Number = "another", device.Number*3+1
		other.Devices = append(other.Devices, device)
	}
	for _, name := range world.Names {
		added := Name{Name: name.Name}
		for i, own := range name.Own {
			var views []*Record
			for _, view := range name.Views[i] {
				views = append(views, record(view))
			}
			added.Own, added.Views = append(added.Own, record(own)), append(added.Views, views)
			what := name.Disk[i]
			if what != nil {
				what = &Node{what.Type, what.Time * 7, otherContent(what.Content), otherTarget(what.Target), what.Mode}
			}
			added.Disk = append(added.Disk, what)
		}
		other.Names = append(other.Names, added)
	}
	return other
}

func otherContent(of Content) Content {
	if of.Hash == "" {
		return of
	}
	return Content{Size: of.Size * 9, Hash: "another " + of.Hash}
}

func otherTarget(of string) string {
	if of == "" {
		return of
	}
	return "another " + of
}

// Worlds that are alike have one shape, and come to ends that are alike.
func TestWorldsThatAreAlike(t *testing.T) {
	small(t, func(seed int64, world World, answer Answer) {
		other := alike(world)
		if world.Devices[0].TimeWindow > 0 { // times within a window aren't those within it seven times as far from one another
			return
		}
		if Shape(world.Devices, world.Copied().Names) != Shape(other.Devices, other.Names) {
			t.Errorf("seed %d: there are two shapes", seed)
		}
		found := New(Budget{States: 60}).OfGroup(other.Devices, other.Names)
		for at := range answer.Ends {
			for _, disk := range answer.Ends[at].Disks {
				for place := range disk {
					what := &disk[place].Node
					if what.Content, what.Target = otherContent(what.Content), otherTarget(what.Target); what.Time != Now {
						what.Time *= 7
					}
				}
			}
		}
		if !reflect.DeepEqual(answer, found) {
			t.Errorf("seed %d: it comes to %+v, not %+v", seed, found, answer)
		}
	})
}

// shaped gives a world of two names, of which each thing can be changed.
func shaped() World {
	file := Record{Type: File, Version: []Counter{{10, 5}, {20, 1}}, Time: 5, Content: Content{3, "old"}, Mode: 0o644}
	link := Record{Type: Symlink, Version: []Counter{{10, 6}}, Target: "to", Mode: NoMode}
	other := Record{Type: Symlink, Version: []Counter{{10, 7}}, Target: "from", Mode: NoMode}
	name := func(name string, records ...Record) Name {
		shaped := Name{Name: name, Views: [][]*Record{make([]*Record, 2), make([]*Record, 2)}}
		for i := range records {
			own, view := records[i], records[1-i]
			what := Node{Type: own.Type, Time: own.Time, Content: own.Content, Target: own.Target, Mode: own.Mode}
			shaped.Own, shaped.Disk, shaped.Views[i][1-i] = append(shaped.Own, &own), append(shaped.Disk, &what), &view
		}
		return shaped
	}
	newer := file
	newer.Version, newer.Time, newer.Content, newer.Mode = []Counter{{10, 5}, {20, 2}}, 7, Content{5, "newer"}, 0o600
	return World{Devices: []Device{{Release: V1_29, Number: 10, MaxConflicts: 10}, {Release: V1_29, Number: 20, MaxConflicts: 10}},
		Names: []Name{name("a", file, newer), name("b", link, other), name("c", file, file)}}
}

// Each thing that the model looks at makes another shape. What it doesn't look at makes none.
func TestWhatMakesAShape(t *testing.T) {
	due := map[string]string{}
	for why, change := range map[string]func(*World){
		"nothing":              func(*World) {},
		"a kind":               func(w *World) { w.Devices[0].Kind = SendOnly },
		"another kind":         func(w *World) { w.Devices[0].Kind = ReceiveOnly },
		"a device's place":     func(w *World) { w.Devices[1].Kind = SendOnly },
		"a release":            func(w *World) { w.Devices[0].Release = V1_19 },
		"the order of numbers": func(w *World) { w.Devices[0].Number, w.Devices[1].Number = 20, 10 },
		"no modes":             func(w *World) { w.Devices[0].IgnorePermissions = true },
		"no deletions":         func(w *World) { w.Devices[0].IgnoreDelete = true },
		"copies":               func(w *World) { w.Devices[0].MaxConflicts = 1 },
		"a window":             func(w *World) { w.Devices[0].TimeWindow = 1 },
		"a longer window":      func(w *World) { w.Devices[0].TimeWindow = 2 },
		"apart":                func(w *World) { w.Devices[0].Apart = 1 << 1 },
		"a directory above":    func(w *World) { w.Names[1].Name = "a/b" },
		"a copy":               func(w *World) { w.Names[1].Name = "b.sync-conflict-20240102-030405-ABCDEFG" },
		"a copy of it":         func(w *World) { w.Names[1].Name = "a.sync-conflict-20240102-030405-ABCDEFG" },
		"a type":               func(w *World) { w.Names[2].Own[0].Type = Directory },
		"a deletion":           func(w *World) { w.Names[2].Own[0].Deleted = true },
		"a flag":               func(w *World) { w.Names[2].Own[0].Flag = LocalChange },
		"another flag":         func(w *World) { w.Names[2].Own[0].Flag = MustBeHashed },
		"a version":            func(w *World) { w.Names[2].Own[0].Version = []Counter{{10, 5}, {20, 2}} },
		"a new version":        func(w *World) { w.Names[2].Own[0].Version = []Counter{{10, 8}} },
		"one device's version": func(w *World) { w.Names[2].Own[0].Version = []Counter{{20, 1}} },
		"a time":               func(w *World) { w.Names[2].Own[0].Time = 7 },
		"a time between":       func(w *World) { w.Names[2].Own[0].Time = 6 },
		"bytes":                func(w *World) { w.Names[2].Own[0].Content = Content{3, "new"} },
		"a size":               func(w *World) { w.Names[2].Own[0].Content = Content{4, "new"} },
		"a target":             func(w *World) { w.Names[1].Own[0].Target = "from" },
		"a mode":               func(w *World) { w.Names[2].Own[0].Mode = 0o600 },
		"what is known":        func(w *World) { w.Names[2].Views[0][1].Mode = 0o600 },
		"what isn't known":     func(w *World) { w.Names[2].Views[0][1] = nil },
		"what isn't recorded":  func(w *World) { w.Names[2].Own[1] = nil },
		"what isn't there":     func(w *World) { w.Names[2].Disk[1] = nil },
		"what stands there":    func(w *World) { w.Names[2].Disk[0].Type = Directory },
		"when it changed":      func(w *World) { w.Names[2].Disk[0].Time = 7 },
		"what it has":          func(w *World) { w.Names[2].Disk[0].Content = Content{5, "newer"} },
		"where it leads":       func(w *World) { w.Names[1].Disk[0].Target = "from" },
		"its mode":             func(w *World) { w.Names[2].Disk[0].Mode = 0o600 },
		"no name":              func(w *World) { w.Names = w.Names[:2] },
		"no device":            func(w *World) { *w = w.turned([]int{0}) },
	} {
		world := shaped()
		change(&world)
		shape := Shape(world.Devices, world.Names)
		if before := due[shape]; before != "" {
			t.Errorf("%s makes the shape of %s", why, before)
		}
		due[shape] = why
	}
	for why, change := range map[string]func(*World){
		"an id":              func(w *World) { w.Devices[0].ID = "laptop" },
		"names":              func(w *World) { w.Names[0].Name, w.Names[1].Name = "aa", "ab" },
		"the order of names": func(w *World) { w.Names[0], w.Names[2] = w.Names[2], w.Names[0] },
		"a symlink's time":   func(w *World) { w.Names[1].Own[0].Time, w.Names[1].Disk[0].Time = 5, 5 },
		"a symlink's mode":   func(w *World) { w.Names[1].Own[0].Mode, w.Names[1].Disk[0].Mode = 0o600, 0o600 },
		"a counter of 0":     func(w *World) { w.Names[1].Own[0].Version = []Counter{{10, 6}, {20, 0}} },
		"a symlink's bytes": func(w *World) {
			w.Names[1].Own[0].Content, w.Names[1].Disk[0].Content = Content{3, "old"}, Content{3, "old"}
		},
		"a view of itself":                 func(w *World) { w.Names[2].Views[0][0] = w.Names[0].Own[1] },
		"the bytes of one that is deleted": func(w *World) { w.Names[2].Own[0].Content = Content{3, "old"} },
	} {
		world := shaped()
		change(&world)
		if due[Shape(world.Devices, world.Names)] != "nothing" {
			t.Errorf("%s makes another shape", why)
		}
	}
}
