package outlook

import (
	"reflect"
	"testing"

	"syncthing-audit/forecast"
	"syncthing-audit/forecast/read"
	"syncthing-audit/join"
	"syncthing-audit/part"
)

// calm gives a name that is at rest on so many devices.
func calm(name string, devices int, hash byte) *join.Row {
	row := &join.Row{Name: name}
	for member := 0; member < devices; member++ {
		record := func() *part.Record {
			return &part.Record{ModifiedS: 100, ModifiedBy: 9, Version: [][2]uint64{{9, 1}}, Sequence: 5, Content: &part.Content{Size: 5, BlockSize: 1 << 17, Hash: part.Hash{hash}}}
		}
		at := &part.Name{Name: part.Bytes(name), Own: record(), Disk: &part.Node{ModifiedS: 100, Size: 5, Contents: []part.Content{*record().Content}, Permissions: 0o644}}
		for view := 0; view < devices-1; view++ {
			at.Views = append(at.Views, part.Seen{View: view, Record: record()})
		}
		row.At = append(row.At, at)
	}
	return row
}

func (p *Plan) isOf(steps []Step, goal []int) bool {
	return reflect.DeepEqual(p.Steps, steps) && (p.Goal == nil) == (goal == nil) && (goal == nil || reflect.DeepEqual(p.Goal.Devices, at(goal...)))
}

var plansOfNames = []struct {
	why    string
	change func(*join.Folder, *join.Row)
	steps  []Step
	goal   []int
}{
	{"rot is replaced by a good copy, once it is saved", func(_ *join.Folder, row *join.Row) { row.At[1].Disk.Contents[0].Hash = part.Hash{99} },
		[]Step{{Act: Save, Device: idOf(1)}, {Act: Copy, Device: idOf(1), From: idOf(0), Over: true}}, []int{0, 2}},
	{"what is missing is copied back", func(_ *join.Folder, row *join.Row) { row.At[1].Disk = nil }, []Step{{Act: Copy, Device: idOf(1), From: idOf(0)}}, []int{0, 2}},
	{"what loses and isn't recorded is saved", func(folder *join.Folder, row *join.Row) {
		for member, one := range folder.Members {
			one.About.Options.MaxConflicts = 0
			one.Head.Folders[0].Options = one.About.Options
			if member < 2 {
				row.At[member].Disk.Contents[0].Hash, row.At[member].Disk.ModifiedS = part.Hash{byte(70 + member)}, int64(200+member)
			}
		}
	}, []Step{{Act: Save, Device: idOf(0)}}, nil},
	{"what comes right by itself has no plan", func(_ *join.Folder, row *join.Row) {
		row.At[1].Disk.Contents[0].Hash, row.At[1].Disk.ModifiedS = part.Hash{70}, 200
	}, nil, nil},
}

func TestPlans(t *testing.T) {
	for _, example := range plansOfNames {
		folder, row := folderOf("send-receive", "send-receive", "send-receive"), calm("a", 3, 1)
		example.change(folder, row)
		told := outlookOf(folder, []*join.Row{row})
		if example.steps == nil {
			if len(told.Plans) > 0 {
				t.Errorf("%s: %+v", example.why, told.Plans)
			}
			continue
		}
		if len(told.Plans) != 1 || !told.Plans[0].isOf(example.steps, example.goal) {
			t.Errorf("%s: %+v", example.why, told.Plans)
		}
	}
}

// Names that are alike have one plan, and to put back what is due costs no search.
func TestNamesWithOnePlan(t *testing.T) {
	from := read.NewRows(folderOf("send-receive", "send-receive", "send-receive"))
	for place := 0; place < 200; place++ {
		row := calm(string(rune('a'+place/26))+string(rune('a'+place%26)), 3, byte(place))
		row.At[1].Disk = nil
		from.Take(row)
	}
	made := &teller{rows: from, planner: newPlanner(1000e9), choices: newChoices(forecast.New(forecast.Usual), nil), outlook: &Outlook{}, unknown: map[read.Why]int64{}, kept: map[Kept]int64{}}
	for _, group := range from.World().Groups() {
		made.group(group, forecast.New(forecast.Usual))
	}
	made.plan()
	plans := made.end().Plans
	if len(plans) != 1 || plans[0].Count != 200 || len(plans[0].Names) != 200 || plans[0].Names[0] != "aa" || len(made.planner.known) != 0 {
		t.Errorf("%d plans, %d searches", len(plans), len(made.planner.known))
	}
}

// Each plan leads where it says, whatever the other names of its group do.
func TestPlansLeadWhereTheySay(t *testing.T) {
	tried := 0
	for seed := int64(100); seed < 124; seed++ {
		folder, all := folderOf(kindsOf(seed, 2+int(seed)%2)...), draw(seed, 2+int(seed)%2, 5)
		told := map[string]Name{}
		for _, name := range outlookOf(folder, all).Listed {
			told[string(name.Name)] = name
		}
		from := read.NewRows(folder)
		for _, row := range all {
			from.Take(row)
		}
		for _, group := range from.World().Groups() {
			world := group.Copied()
			for _, name := range group.Names {
				carryOut(&world, name.Name, told[name.Name].Plan)
			}
			for _, end := range forecast.New(forecast.Usual).OfGroup(world.Devices, world.Names).Ends {
				for _, name := range group.Names {
					if plan := told[name.Name].Plan; plan != nil && plan.Goal != nil {
						tried++
						if !standsOnAll(&end, name.Name, plan.Goal) {
							t.Errorf("seed %d, %s: %+v doesn't lead to %+v", seed, name.Name, plan.Steps, plan.Goal)
						}
					}
				}
			}
		}
	}
	if tried < 10 {
		t.Error("too few plans were tried:", tried)
	}
}

// presentOfPlans is above all times of what is planned for.
const presentOfPlans = 2000000000e9

func carryOut(world *forecast.World, name string, plan *Plan) {
	if plan == nil {
		return
	}
	for _, step := range plan.Steps {
		take(world, name, step)
	}
}

func standsOnAll(end *forecast.End, name string, goal *Thing) bool {
	for _, thing := range thingsOf(anyDevices, end)[name] {
		if thing.IsSame(*goal) {
			return len(thing.Devices) == len(end.Disks)
		}
	}
	return false
}

// What goes from some devices though others keep the name is to be saved: where nothing comes in its place there, and no copy of it is kept.
func TestWhatGoesFromSomeDevicesIsSaved(t *testing.T) {
	thing := func(hash string, members ...int) Thing {
		return Thing{Devices: at(members...), Type: forecast.File, Content: forecast.Content{Size: 5, Hash: hash}}
	}
	copied := thing("good", 0)
	copied.IsCopy = true
	for _, row := range []struct {
		ends   [][]Thing
		isTold bool
	}{
		{[][]Thing{{thing("rot", 1)}}, true},
		{[][]Thing{{thing("rot", 1), thing("newer", 0)}}, true},
		{[][]Thing{{thing("rot", 1), copied}}, false},
		{[][]Thing{{thing("rot", 1), thing("newer", 0, 2)}}, false},
		{[][]Thing{{thing("rot", 1), thing("good", 0, 2)}, {thing("rot", 1)}}, true},
	} {
		for _, fate := range []Fate{Stays, Depends, Deleted, ByItself} {
			name := Name{Fate: fate, Now: []Thing{thing("rot", 1), thing("good", 0, 2)}, Ends: row.ends}
			saved := name.toSave()
			if is := len(saved) == 1 && saved[0].Content.Hash == "good"; is != (row.isTold && (fate == Stays || fate == Depends)) || !is && len(saved) > 0 {
				t.Errorf("%s, %v: %v", fate, row.ends, saved)
			}
		}
	}
}

// Of two changes that don't know each other, of which no copy is kept, the one that goes is saved, whatever its age: it isn't sent over the other one.
func TestTheChangeThatGoesIsSaved(t *testing.T) {
	for _, older := range []int{0, 1} {
		folder, row := folderOf("send-receive", "send-receive", "send-receive"), calm("a", 3, 1)
		for _, member := range folder.Members {
			member.About.Options.MaxConflicts = 0
		}
		changedAt(row, 0, 7, false)
		changedAt(row, 1, 8, false)
		row.At[older].Own.ModifiedS, row.At[older].Disk.ModifiedS = 250, 250
		for other, at := range row.At {
			for view := range at.Views {
				if viewOf(other, view) == older {
					at.Views[view].Record.ModifiedS = 250
				}
			}
		}
		told := outlookOf(folder, []*join.Row{row})
		if told.Lost != 1 || len(told.Plans) != 1 || !told.Plans[0].isOf([]Step{{Act: Save, Device: idOf(older)}}, nil) {
			t.Errorf("%d is older: %+v, %+v", older, countsOf(told), told.Plans)
		}
	}
}
