package advice

import (
	"fmt"
	"reflect"
	"testing"

	"syncthing-audit/forecast"
)

// plainly is what a list of steps comes to, worked out step by step on a copy of the world.
type plainly struct {
	isThere  bool     // what each step touches or copies stands on a disk now, and has room
	isKnown  bool     // all ends are known
	missed   []Goal   // that some end isn't
	lost     Contents // at some end
	anyway   Contents // lost if nobody does anything
	isUnsafe bool     // whoever stops on the way loses more
}

// plainlyOf gives nothing where a step needs what a step before it took away: no list of steps is such.
func plainlyOf(search Search, world forecast.World, goals []Goal, steps []Step) *plainly {
	told, so := &plainly{isThere: true, anyway: lostPlainly(world, search.answer(world).Ends)}, world.Copied()
	var onTheWay []Contents
	for _, step := range steps {
		from := map[Act]int{Touch: step.Device, Copy: step.From}
		if place, needs := from[step.Act]; needs && world.At(place, step.Name) == nil {
			told.isThere = false
			return told
		} else if needs && so.At(place, step.Name) == nil {
			return nil
		}
		if step.Act == Copy && !world.HasRoom(step.Device, step.Name) {
			told.isThere = false
			return told
		}
		onTheWay = append(onTheWay, lostPlainly(world, search.answer(so).Ends))
		step.On(&so, present)
	}
	answer := search.answer(so)
	told.isKnown = len(answer.Ends) > 0 && answer.Endless == 0
	told.lost = lostPlainly(world, answer.Ends)
	for _, goal := range goals {
		for place := range answer.Ends {
			if !goal.isReached(&answer.Ends[place]) {
				told.missed = append(told.missed, goal)
				break
			}
		}
	}
	for _, left := range onTheWay {
		for content := range left {
			told.isUnsafe = told.isUnsafe || !told.lost[content] && !told.anyway[content]
		}
	}
	return told
}

// lostPlainly gives the bytes of a world's disks that some end has nowhere.
func lostPlainly(world forecast.World, ends []forecast.End) Contents {
	lost := Contents{}
	for _, name := range world.Names {
		for _, what := range name.Disk {
			for place := range ends {
				if what != nil && what.Content.Size > 0 && !hasBytes(&ends[place], what.Content) {
					lost[what.Content] = true
				}
			}
		}
	}
	return lost
}

func hasBytes(end *forecast.End, content forecast.Content) bool {
	for _, disk := range end.Disks {
		for _, place := range disk {
			if place.Node.Content == content {
				return true
			}
		}
	}
	return false
}

// costs are the bytes that the steps lose, and nobody else.
func (p *plainly) costs() map[string]bool {
	made := map[string]bool{}
	for content := range p.lost {
		if !p.anyway[content] {
			made[content.Hash] = true
		}
	}
	return made
}

func hashes(of []forecast.Content) map[string]bool {
	made := map[string]bool{}
	for _, content := range of {
		made[content.Hash] = true
	}
	return made
}

// allSteps are all steps at names of a world of so many devices.
func allSteps(count int, names ...string) []Step {
	var made []Step
	for _, name := range names {
		for device := 0; device < count; device++ {
			made = append(made, Step{Touch, device, 0, name}, Step{Delete, device, 0, name})
			for from := 0; from < count; from++ {
				if from != device {
					made = append(made, Step{Copy, device, from, name})
				}
			}
		}
	}
	return made
}

// compare compares what is said of steps with what they come to, and counts the outcomes.
func compare(t *testing.T, world forecast.World, goals []Goal, steps []Step, outcomes map[string]int) {
	search := Search{forecast.New(forecast.Usual), present}
	due := plainlyOf(search, world, goals, steps)
	if due == nil {
		return
	}
	what := fmt.Sprintf("%+v for %+v", steps, goals)
	isPlan := due.isThere && due.isKnown && len(due.missed) == 0 && !due.isUnsafe
	if len(goals) == 1 {
		made := search.Check(world, goals[0], steps)
		if (made != nil) != isPlan {
			t.Errorf("%s: %+v, and of the steps %+v is due", what, made, due)
		}
		if made != nil && (!reflect.DeepEqual(made.Steps, steps) || len(made.Costs) > 0) {
			t.Errorf("%s: %+v", what, made)
		}
	}
	if !due.isThere {
		outcomes["nothing there"]++
		return
	}
	made, missed := search.Together(world, goals, steps)
	if (made != nil) != isPlan || due.isKnown && !reflect.DeepEqual(missed, due.missed) || !due.isKnown && missed != nil {
		t.Errorf("%s: %+v, missed %+v, and of the steps %+v is due", what, made, missed, due)
	}
	if made != nil && !(reflect.DeepEqual(made.Steps, steps) && reflect.DeepEqual(hashes(made.Costs), due.costs()) && len(made.Lost) == len(due.lost)) {
		t.Errorf("%s: %+v, not %+v", what, made, due)
	}
	switch {
	case !due.isKnown:
		outcomes["not known"]++
	case len(due.missed) > 0:
		outcomes["missed"]++
	case due.isUnsafe:
		outcomes["not safe"]++
	case len(due.costs()) > 0:
		outcomes["costs"]++
	default:
		outcomes["plan"]++
	}
}

// Steps that are given are a plan just if each step can be taken, each end is the goal, and nobody who stops on the way loses more.
func TestGivenStepsAreAPlanIfTheyLeadToTheGoalAndAreSafe(t *testing.T) {
	outcomes := map[string]int{}
	kinds := [][]forecast.Kind{{both, both}, {both, receive}, {sends, both}}
	for draw := 0; draw < 16; draw++ {
		disks := make([]*forecast.Node, 2)
		for place := range disks {
			disks[place] = []*forecast.Node{node("old", 5), node("rot", 5), node(fmt.Sprint("new ", place), int64(60+draw%7*place)), nil}[draw>>(2*place)&3]
		}
		world := world(devices(kinds[draw%3]...), disks...)
		steps := allSteps(2, "a")
		for first := range steps {
			for _, goal := range []*forecast.Node{disks[0], disks[1]} {
				compare(t, world, []Goal{{"a", goal}}, steps[first:first+1], outcomes)
				compare(t, world, []Goal{{"a", goal}}, []Step{steps[first], steps[(first+draw+1)%len(steps)]}, outcomes)
			}
		}
		compare(t, world, []Goal{{"a", disks[0]}, {"a", disks[1]}, {"b", nil}, {"b", node("x", 1)}}, steps[draw%len(steps):draw%len(steps)+1], outcomes)
	}
	for _, due := range []string{"nothing there", "missed", "not safe", "costs", "plan"} {
		if outcomes[due] == 0 {
			t.Errorf("no steps came to '%s': %v", due, outcomes)
		}
	}
}

// A file can't be copied below another one.
func TestNothingIsCopiedBelowAFile(t *testing.T) {
	of := devices(both, both)
	made := world(of, &forecast.Node{Type: forecast.Directory, Mode: 0o755}, node("file", 60))
	below := world(of, node("old", 5), nil).Names[0]
	below.Name = "a/b"
	made.Names = append(made.Names, below)
	search := Search{forecast.New(forecast.Usual), present}
	if plan := search.Check(made, Goal{"a/b", node("old", 0)}, []Step{{Copy, 1, 0, "a/b"}}); plan != nil {
		t.Errorf("%+v", plan)
	}
}

// Where the ends of steps aren't known, they are no plan, and no goal is missed.
func TestStepsWhoseEndsArentKnown(t *testing.T) {
	of := world(devices(both, both, both), node("one", 60), node("two", 70), node("three", 80))
	search := Search{forecast.New(forecast.Budget{States: 1, Walks: 0, Total: 1, Most: 1}), present}
	if answer := search.answer(of); len(answer.Ends) > 0 {
		t.Fatalf("%+v", answer)
	}
	goals := []Goal{{"a", node("one", 60)}}
	if made, missed := search.Together(of, goals, nil); made != nil || missed != nil {
		t.Errorf("%+v, %+v", made, missed)
	}
	if made := search.Check(of, goals[0], nil); made != nil {
		t.Errorf("%+v", made)
	}
}
