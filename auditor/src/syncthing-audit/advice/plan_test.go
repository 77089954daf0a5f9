package advice

import (
	"fmt"
	"reflect"
	"testing"

	"syncthing-audit/forecast"
)

const present = 1000

func devices(kinds ...forecast.Kind) []forecast.Device {
	var devices []forecast.Device
	for place, kind := range kinds {
		devices = append(devices, forecast.Device{Kind: kind, Release: forecast.V1_29, Number: uint64(10 * (place + 1)), MaxConflicts: 10})
	}
	return devices
}

func node(text string, time int64) *forecast.Node {
	return &forecast.Node{Type: forecast.File, Time: time, Content: forecast.Content{Size: int64(len(text)), Hash: text}, Mode: 0o644}
}

// world gives a file "a" that all have recorded, and what stands on their disks; nothing without a node.
func world(of []forecast.Device, disks ...*forecast.Node) forecast.World {
	name := forecast.Name{Name: "a", Disk: disks}
	old := node("old", 5)
	for i := range of {
		entry := &forecast.Record{Type: forecast.File, Version: []forecast.Counter{{Device: 10, Value: 7}}, Time: old.Time, Content: old.Content, Mode: old.Mode}
		name.Own = append(name.Own, entry)
		name.Views = append(name.Views, make([]*forecast.Record, len(of)))
		for j := range of {
			if j != i {
				name.Views[i][j] = entry
			}
		}
	}
	return forecast.World{Devices: of, Names: []forecast.Name{name}}
}

const (
	both    = forecast.SendReceive
	sends   = forecast.SendOnly
	receive = forecast.ReceiveOnly
)

var cases = []struct {
	why   string
	world forecast.World
	goal  *forecast.Node
	steps []Step // of the first plan
	lost  []string
	plans int
}{
	{"all have it already", world(devices(both, both), node("old", 5), node("old", 5)), node("old", 0), []Step{}, nil, 1},
	{"rot is mended by a copy", world(devices(both, both, both), node("old", 5), node("rot", 5), node("old", 5)), node("old", 0),
		[]Step{{Copy, 1, 0, "a"}}, []string{"rot"}, 1},
	{"rot spreads if it is touched, and the right bytes are lost", world(devices(both, both), node("old", 5), node("rot", 5)), node("rot", 0),
		[]Step{{Touch, 1, 0, "a"}}, []string{"old"}, 2},
	{"the later of two changes prevails by itself", world(devices(both, both), node("one", 60), node("two", 70)), node("two", 0), []Step{}, nil, 1},
	{"the earlier one prevails once it is touched", world(devices(both, both), node("one", 60), node("two", 70)), node("one", 0),
		[]Step{{Touch, 0, 0, "a"}}, nil, 0},
	{"a deletion prevails where the change is deleted, too", world(devices(both, both), node("new", 60), nil), nil, []Step{{Delete, 0, 0, "a"}}, []string{"new"}, 1},
	{"a deletion is taken back by a touch", world(devices(both, both), node("old", 5), nil), node("old", 0), []Step{{Touch, 0, 0, "a"}}, nil, 0},
	{"three steps are a plan, and what it loses rises", world(devices(both, sends, sends, sends), node("old", 5), node("rt3", 5), node("rt1", 5), node("rt2", 5)), node("old", 0),
		[]Step{{Copy, 1, 0, "a"}, {Copy, 2, 0, "a"}, {Copy, 3, 0, "a"}}, []string{"rt1", "rt2", "rt3"}, 1},
	{"nobody has the bytes", world(devices(both, both), node("old", 5), node("old", 5)), node("none", 0), nil, nil, 0},
}

// Each goal has its shortest plan, and the plan says what is lost.
func TestPlans(t *testing.T) {
	for _, row := range cases {
		plans := Search{forecast.New(forecast.Usual), present}.Plans(row.world, Goal{"a", row.goal})
		if row.steps == nil {
			if plans != nil {
				t.Errorf("%s: %+v", row.why, plans)
			}
			continue
		}
		if len(plans) == 0 {
			t.Errorf("%s: no plan", row.why)
			continue
		}
		var lost []string
		for _, content := range plans[0].Lost {
			lost = append(lost, content.Hash)
		}
		if !reflect.DeepEqual(plans[0].Steps, row.steps) || !reflect.DeepEqual(lost, row.lost) || row.plans > 0 && len(plans) != row.plans {
			t.Errorf("%s: %d plans, the first is %+v, which loses %v", row.why, len(plans), plans[0].Steps, lost)
		}
	}
}

// A plan may be left after each step: until the last one nothing is lost that the plan keeps.
func TestPlansAreSafeFromTheTop(t *testing.T) {
	long := 0
	search := Search{forecast.New(forecast.Usual), present}
	for _, kinds := range [][]forecast.Kind{{both, both, both}, {sends, both, receive}, {receive, both, both}, {both, sends, sends}} {
		for draw := 0; draw < 64; draw += 7 {
			disks := make([]*forecast.Node, 3)
			for place := range disks {
				disks[place] = []*forecast.Node{node("old", 5), node("rot", 5), node(fmt.Sprint("new ", place), int64(60+draw%7*place)), nil}[draw>>(2*place)&3]
			}
			of := world(devices(kinds...), disks...)
			for _, goal := range disks {
				long += checkPlans(t, search, of, Goal{"a", goal})
			}
		}
	}
	if long < 10 {
		t.Fatal("too few plans of more than one step:", long)
	}
}

// checkPlans looks at what is left after each step of each plan, and gives how many plans have more than one.
func checkPlans(t *testing.T, search Search, of forecast.World, goal Goal) (long int) {
	nothing := Contents{}
	OnDisks(of.Names).lostIn(search.answer(of).Ends, nothing)
	for _, plan := range search.Plans(of, goal) {
		lost := Contents{}
		for _, content := range plan.Lost {
			lost[content] = true
		}
		so := of.Copied()
		for place, step := range plan.Steps {
			step.On(&so, present)
			left := Contents{}
			OnDisks(of.Names).lostIn(search.answer(so).Ends, left)
			if !left.isWithin(lost, nothing) {
				t.Errorf("%+v, step %d of %+v: lost %v", goal, place, plan.Steps, left)
			}
		}
		if len(plan.Steps) > 1 {
			long++
		}
	}
	return long
}
