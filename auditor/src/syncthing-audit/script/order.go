package script

import (
	"path"

	"syncthing-audit/outlook"
)

// step is one step for one name.
type step struct {
	act    outlook.Act
	device string
	from   string // of a copy
	over   bool
	name   string
	plan   *outlook.Plan
	round  int // from 1
}

// place is a name on a device.
type place struct{ device, name string }

// latest is the last round of something at each place.
type latest map[place]int

// order puts steps into rounds: the scripts of one round may be run in any order, and all of them come before those of the next.
type order struct {
	steps  latest // any step on that device
	change latest // one that changes what stands there
	read   latest // one on another device that copies from there
}

func newOrder() *order { return &order{latest{}, latest{}, latest{}} }

// stepsOf gives the steps of plans, from the top, each in its round.
func stepsOf(plans []*outlook.Plan) []step {
	var steps []step
	order := newOrder()
	for _, plan := range plans {
		for _, told := range plan.Steps {
			for _, name := range plan.Names {
				next := step{act: told.Act, device: told.Device, from: told.From, over: told.Over, name: string(name), plan: plan}
				next.round = order.roundOf(&next)
				order.note(&next)
				steps = append(steps, next)
			}
		}
	}
	return steps
}

// changes says whether a step changes what stands at its name.
func (s *step) changes() bool { return s.act != outlook.Save }

// roundOf gives the round of the next step. It isn't before any step on its device that has to do with its name. What it copies has been changed in
// an earlier round, and what it changes has been copied in one.
func (o *order) roundOf(next *step) int {
	round := max(1, o.steps.of(next.device, next.name))
	if next.changes() {
		round = max(round, o.read.of(next.device, next.name)+1)
	}
	if next.act == outlook.Copy {
		round = max(round, o.change.of(next.from, next.name)+1)
	}
	return round
}

func (o *order) note(step *step) {
	o.steps.note(step.device, step.name, step.round)
	if step.changes() {
		o.change.note(step.device, step.name, step.round)
	}
	if step.act == outlook.Copy {
		o.read.note(step.from, step.name, step.round)
	}
}

// of gives the last round of what has to do with a name: of the name itself, of what stands above it, and of what stands below it.
func (l latest) of(device, name string) int {
	round := max(l[place{device, name}], l[place{device, name + "/"}])
	for above := path.Dir(name); above != "." && above != "/"; above = path.Dir(above) {
		round = max(round, l[place{device, above}])
	}
	return round
}

// note notes a round at a name, and below each directory above it.
func (l latest) note(device, name string, round int) {
	l.raise(place{device, name}, round)
	for above := path.Dir(name); above != "." && above != "/"; above = path.Dir(above) {
		l.raise(place{device, above + "/"}, round)
	}
}

func (l latest) raise(at place, round int) { l[at] = max(l[at], round) }

func max(a, b int) int {
	if a > b {
		return a
	}
	return b
}
