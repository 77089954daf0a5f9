package advice

import (
	"fmt"
	"reflect"
	"sort"
	"testing"

	"syncthing-audit/forecast"
)

// candidates are the steps that may serve a goal: a new time for it where it stands, copies of it from the first device that has it, and the deletion of
// what stands there instead.
func candidates(world forecast.World, goal Goal) []Step {
	var found []Step
	first := -1
	for device := range world.Devices {
		if goal.Node != nil && reflect.DeepEqual(contentAt(world, device), goal.Node.Content) {
			found = append(found, Step{Touch, device, 0, "a"})
			if first < 0 {
				first = device
			}
		}
	}
	for device := range world.Devices {
		if what := world.At(device, "a"); goal.Node == nil || what == nil || what.Content != goal.Node.Content {
			if first >= 0 {
				found = append(found, Step{Copy, device, first, "a"})
			}
			if what != nil {
				found = append(found, Step{Delete, device, 0, "a"})
			}
		}
	}
	return found
}

func contentAt(world forecast.World, device int) interface{} {
	if what := world.At(device, "a"); what != nil {
		return what.Content
	}
	return nil
}

// plansPlainly gives the choices of so many steps that are a plan in some order, each as a text.
func plansPlainly(search Search, world forecast.World, goal Goal, count int) []string {
	var found []string
	choose(candidates(world, goal), count, func(steps []Step) {
		isPlan := false
		permute(append([]Step{}, steps...), func(order []Step) bool {
			due := plainlyOf(search, world, []Goal{goal}, order)
			isPlan = due != nil && due.isThere && due.isKnown && len(due.missed) == 0 && !due.isUnsafe
			return !isPlan
		})
		if isPlan {
			found = append(found, textOf(steps))
		}
	})
	sort.Strings(found)
	return found
}

// textOf names steps whatever their order.
func textOf(steps []Step) string {
	var each []string
	for _, step := range steps {
		each = append(each, fmt.Sprint(step))
	}
	sort.Strings(each)
	return fmt.Sprint(each)
}

// The plans of a goal are all choices of as few steps as serve, in an order in which one may stop; those that lose least come first.
func TestPlansAreAllShortestOnes(t *testing.T) {
	search := Search{forecast.New(forecast.Usual), present}
	counts, isSorted := map[int]int{}, 0
	for _, kinds := range [][]forecast.Kind{{both, both}, {both, both, both}, {sends, both, receive}} {
		for draw := 0; draw < 64; draw += 5 {
			disks := make([]*forecast.Node, len(kinds))
			for place := range disks {
				disks[place] = []*forecast.Node{node("old", 5), node("rot", 5), node(fmt.Sprint("new ", place), int64(60+draw%7*place)), nil}[draw>>(2*place)&3]
			}
			world := world(devices(kinds...), disks...)
			goal := Goal{"a", disks[draw%len(disks)]}
			plans := search.Plans(world, goal)
			var told, due []string
			count := 0
			for ; count <= MostSteps && due == nil; count++ {
				due = plansPlainly(search, world, goal, count)
			}
			for place, plan := range plans {
				told = append(told, textOf(plan.Steps))
				if place > 0 && len(plans[place-1].Lost) > len(plan.Lost) {
					t.Errorf("%v, %+v: a plan that loses less comes later", kinds, goal)
				}
				if place > 0 && len(plans[place-1].Lost) < len(plan.Lost) {
					isSorted++
				}
			}
			if sort.Strings(told); !reflect.DeepEqual(told, due) {
				t.Errorf("%v, draw %d, %+v: %v, not %v", kinds, draw, goal, told, due)
			}
			if len(plans) > 0 {
				counts[count-1]++
			}
		}
	}
	if counts[0] == 0 || counts[1] == 0 || counts[2] == 0 || isSorted == 0 {
		t.Errorf("plans by their steps: %v, %d of them lose more than others", counts, isSorted)
	}
}

// A plan of up to nine steps may be left after each of them; of a longer one, after every second step or fewer, from the first on.
func TestAfterWhichStepsAPlanMayBeLeft(t *testing.T) {
	world := world(devices(both, both), node("old", 5), node("rot", 5))
	other := world.Names[0]
	other.Name, other.Disk = "b", []*forecast.Node{node("old b", 5), node("old b", 5)}
	world.Names = append(world.Names, other)
	harmless := Step{Touch, 0, 0, "b"}
	for count := 3; count <= 11; count++ {
		for at := 0; at+1 < count; at++ {
			steps := make([]Step, count)
			for place := range steps {
				steps[place] = harmless
			}
			steps[at], steps[at+1] = Step{Delete, 1, 0, "a"}, Step{Copy, 1, 0, "a"} // between these the deletion would prevail
			made, missed := Search{forecast.New(forecast.Usual), present}.Together(world, []Goal{{"a", node("old", 0)}}, steps)
			isTried := count <= 9 || at%2 == 0
			if (made == nil) != isTried || missed != nil {
				t.Errorf("%d steps, of which the one at %d is no stop: %+v, %+v", count, at, made, missed)
			}
		}
	}
}

// A directory is copied with all below it, and nothing else is.
func TestADirectoryIsCopiedWithAllBelow(t *testing.T) {
	of := devices(both, both)
	directory := &forecast.Node{Type: forecast.Directory, Mode: 0o755}
	for _, what := range []*forecast.Node{directory, node("file", 5)} {
		made := world(of, what, nil)
		below := world(of, node("old", 5), nil).Names[0]
		below.Name = "a/b"
		made.Names = append(made.Names, below)
		Step{Copy, 1, 0, "a"}.On(&made, present)
		if there := made.At(1, "a"); there == nil || *there != *what || (made.At(1, "a/b") != nil) != (what == directory) {
			t.Errorf("%+v, %+v", there, made.At(1, "a/b"))
		}
	}
}

// A file that is copied to where a directory stands takes its place, with all that stood below it. Bytes are on a disk however few they are.
func TestAFileIsCopiedOverADirectory(t *testing.T) {
	of, file := devices(both, both), node("file", 5)
	made := world(of, file, &forecast.Node{Type: forecast.Directory, Mode: 0o755})
	below := world(of, nil, node("old", 5)).Names[0]
	below.Name = "a/b"
	below.Disk[1].Content.Size = 1
	made.Names = append(made.Names, below)
	if bytes := OnDisks(made.Names); len(bytes) != 2 || !bytes[below.Disk[1].Content] {
		t.Errorf("%+v", bytes)
	}
	Step{Copy, 1, 0, "a"}.On(&made, present)
	if there := made.At(1, "a"); there == nil || *there != *file || made.At(1, "a/b") != nil || len(OnDisks(made.Names)) != 1 {
		t.Errorf("%+v, %+v", there, made.At(1, "a/b"))
	}
}
