package advice

import (
	"sort"

	"syncthing-audit/forecast"
)

// Act is what a step does.
type Act string

const (
	Touch  Act = "touch"  // gives the present time to what is there
	Copy   Act = "copy"   // copies from another device, with the time and the mode: a directory with all below it
	Delete Act = "delete" // with all below it
)

// Step is one step on one device's disk.
type Step struct {
	Act    Act
	Device int
	From   int // of a copy
	Name   string
}

// Plan is what to do, and what comes of it.
type Plan struct {
	Steps  []Step
	Answer forecast.Answer    // each end is the goal
	Lost   []forecast.Content // bytes that are on some disk now, and on none at some end
	Costs  []forecast.Content // those of them that aren't lost without it; only of several goals together
}

// MostSteps is how many steps a plan has at most.
const MostSteps = 3

// Search says how to search.
type Search struct {
	Forecaster *forecast.Forecaster
	Present    int64 // the present time, in nanoseconds
}

// Plans gives the shortest plans of a goal, the ones that lose least first: nothing if there is none. The world's names must hang together.
func (s Search) Plans(world forecast.World, goal Goal) []Plan {
	t := task{Search: s, world: world, goal: goal, before: OnDisks(world.Names), unavoidable: Contents{}}
	t.before.lostIn(s.answer(world).Ends, t.unavoidable)
	for count := 0; count <= MostSteps; count++ {
		var plans []Plan
		choose(StepsTo(&t.world, goal), count, func(steps []Step) {
			if plan := t.plan(steps); plan != nil {
				plans = append(plans, *plan)
			}
		})
		if len(plans) > 0 {
			sort.SliceStable(plans, func(a, b int) bool { return len(plans[a].Lost) < len(plans[b].Lost) })
			return plans
		}
	}
	return nil
}

type task struct {
	Search
	world       forecast.World
	goal        Goal
	before      Contents // on disks now
	unavoidable Contents // what is lost if nobody does anything
}

func (s Search) answer(world forecast.World) forecast.Answer {
	return s.Forecaster.OfGroup(world.Devices, world.Copied().Names)
}

// StepsTo gives all steps that may serve a goal.
func StepsTo(world *forecast.World, goal Goal) []Step {
	var steps []Step
	from := -1
	for i := range world.Devices {
		if there := world.At(i, goal.Name); goal.Node != nil && isSame(there, goal.Node) {
			if there.Type == forecast.File { // no scan sees the time of anything else
				steps = append(steps, Step{Touch, i, 0, goal.Name})
			}
			if from < 0 {
				from = i
			}
		}
	}
	for i := range world.Devices {
		there := world.At(i, goal.Name)
		if from >= 0 && !isSame(there, goal.Node) && world.HasRoom(i, goal.Name) {
			steps = append(steps, Step{Copy, i, from, goal.Name})
		}
		if there != nil && !isSame(there, goal.Node) {
			steps = append(steps, Step{Delete, i, 0, goal.Name})
		}
	}
	return steps
}

// choose calls for each choice of some of these steps, in their order.
func choose(steps []Step, count int, call func([]Step)) {
	var chosen []Step
	var next func(from int)
	next = func(from int) {
		if len(chosen) == count {
			call(append([]Step{}, chosen...))
			return
		}
		for place := from; place < len(steps); place++ {
			chosen = append(chosen, steps[place])
			next(place + 1)
			chosen = chosen[:len(chosen)-1]
		}
	}
	next(0)
}

// plan gives the plan of these steps, in an order that is safe from the top; nothing if they have another end, or no such order.
func (t *task) plan(steps []Step) *Plan {
	var found *Plan
	if t.leads(steps) == nil {
		return nil
	}
	permute(steps, func(order []Step) bool {
		if plan := t.leads(order); plan != nil && t.isSafe(order, plan.Lost) {
			found = plan
		}
		return found == nil
	})
	return found
}

// leads gives the plan of steps in this order if each of its ends is the goal.
func (t *task) leads(steps []Step) *Plan {
	plan := t.comesOf(steps)
	if plan == nil || !t.goal.isReachedAtAll(plan.Answer.Ends) {
		return nil
	}
	return plan
}

// comesOf gives what comes of steps in this order; nothing where that isn't known.
func (t *task) comesOf(steps []Step) *Plan {
	plan := &Plan{Steps: append([]Step{}, steps...), Answer: t.answer(t.after(steps))}
	if len(plan.Answer.Ends) == 0 || plan.Answer.Endless > 0 {
		return nil
	}
	lost := Contents{}
	t.before.lostIn(plan.Answer.Ends, lost)
	for content := range lost {
		plan.Lost = append(plan.Lost, content)
	}
	sort.Slice(plan.Lost, func(a, b int) bool { return plan.Lost[a].Hash < plan.Lost[b].Hash })
	return plan
}

// mostStops is after how many of its steps a plan is tried to be left: of a longer plan, which does the same to many names, after some of them.
const mostStops = 8

// isSafe says whether one may stop after each step: nothing is lost then but what the plan loses, or what is lost without it.
func (t *task) isSafe(steps []Step, lost []forecast.Content) bool {
	allowed := Contents{}
	for _, content := range lost {
		allowed[content] = true
	}
	apart := 1 + (len(steps)-1)/(mostStops+1)
	for count := 1; count < len(steps); count += apart {
		onTheWay := Contents{}
		t.before.lostIn(t.answer(t.after(steps[:count])).Ends, onTheWay)
		if !onTheWay.isWithin(allowed, t.unavoidable) {
			return false
		}
	}
	return true
}

// permute calls for each order of some steps until a call says that this was enough.
func permute(steps []Step, call func([]Step) bool) bool {
	var again func(chosen, rest []Step) bool
	again = func(chosen, rest []Step) bool {
		if len(rest) == 0 {
			return call(chosen)
		}
		for place := range rest {
			others := append(append([]Step{}, rest[:place]...), rest[place+1:]...)
			if !again(append(append([]Step{}, chosen...), rest[place]), others) {
				return false
			}
		}
		return true
	}
	return again(nil, steps)
}

// after gives the world after these steps.
func (t *task) after(steps []Step) forecast.World {
	world := t.world.Copied()
	for _, step := range steps {
		step.On(&world, t.Present)
	}
	return world
}

// On carries out a step in a world.
func (s Step) On(world *forecast.World, present int64) {
	switch s.Act {
	case Touch:
		what := *world.At(s.Device, s.Name)
		what.Time = present
		world.Put(s.Device, s.Name, what)
	case Copy:
		what := *world.At(s.From, s.Name)
		world.Remove(s.Device, s.Name)
		world.Put(s.Device, s.Name, what)
		if what.Type == forecast.Directory {
			world.PutBelow(s.Device, s.Name, s.From)
		}
	case Delete:
		world.Remove(s.Device, s.Name)
	}
}
