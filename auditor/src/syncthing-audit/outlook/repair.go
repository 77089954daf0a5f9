package outlook

import (
	"path"
	"sort"
	"strings"

	"syncthing-audit/advice"
	"syncthing-audit/damage"
	"syncthing-audit/forecast"
	"syncthing-audit/lists"
)

// mostRepairs is how many steps put back what is due to names that hang together.
const mostRepairs = 12

// mostTries is how often a repair is tried: each time without the names that don't come to what is due.
const mostTries = 3

// repair puts back what is due where disks were harmed: on each of them it copies that from a device that has it, a directory with all below it.
type repair struct {
	group  *forecast.World
	told   []Name
	damage map[string][]damage.Kind
	world  forecast.World // after the steps
	skip   map[string]bool
	hands  []hand
}

// repairs gives names that hang together the plans that put back what is due, where that leads to it on all devices. It gives the world after the
// steps, and the goals.
func (p *planner) repairs(group *forecast.World, told []Name, damaged map[string][]damage.Kind) (forecast.World, []advice.Goal) {
	skip := map[string]bool{}
	for try := 0; try < mostTries; try++ {
		r := &repair{group: group, told: told, damage: damaged, world: group.Copied(), skip: skip}
		r.find()
		goals, steps := together(r.hands)
		if len(steps) == 0 || len(steps) > mostRepairs {
			break
		}
		found, missed := p.search.Together(group.Copied(), goals, steps)
		if found != nil && r.losesNothing(found) {
			r.tell(p.plansOf(group, r.hands, found))
			return r.world, goals
		}
		if len(missed) == 0 {
			break
		}
		for _, goal := range missed {
			skip[goal.Name] = true
		}
	}
	return group.Copied(), nil
}

// losesNothing says whether a plan loses only what looks damaged, and what is lost without it.
func (r *repair) losesNothing(found *advice.Plan) bool {
	allowed := map[forecast.Content]bool{}
	for place := range r.group.Names {
		name := &r.group.Names[place]
		for member, what := range name.Disk {
			if what != nil && (r.isHarmed(name, member, what, &r.told[place]) || isRot(name.Own[member], what)) {
				allowed[what.Content] = true
			}
		}
	}
	return !lists.Has(found.Costs, func(content forecast.Content) bool { return !allowed[content] })
}

// isRot says whether a file has other bytes than recorded under the recorded time.
func isRot(own *forecast.Record, what *forecast.Node) bool {
	return own != nil && !own.Deleted && own.Type == forecast.File && what.Type == forecast.File && own.Content != what.Content && own.Time == what.Time
}

// find finds the steps: those of directories first, since nothing is copied below one that isn't there.
func (r *repair) find() {
	for _, place := range r.order() {
		name := &r.group.Names[place]
		if r.skip[name.Name] {
			continue
		}
		due, from := r.dueOf(name, &r.told[place])
		if due == nil {
			continue
		}
		isHarmed, next := false, hand{place: place, goal: advice.Goal{Name: name.Name, Node: due}}
		for member := range name.Disk {
			isHarmed = isHarmed || r.isHarmed(name, member, name.Disk[member], &r.told[place])
			if what := r.world.Names[place].Disk[member]; member != from && r.isHarmed(name, member, what, &r.told[place]) && r.hasDirectoryAbove(member, name.Name) {
				next.steps = append(next.steps, r.copyTo(name.Name, member, from, what, due)...)
			}
		}
		if isHarmed || len(next.steps) > 0 {
			r.hands = append(r.hands, next)
		}
	}
}

// order gives the places of the names: directories, and then what is in most danger.
func (r *repair) order() []int {
	var places []int
	for place := range r.group.Names {
		places = append(places, place)
	}
	sort.SliceStable(places, func(a, b int) bool {
		one, other := isDirectory(&r.group.Names[places[a]]), isDirectory(&r.group.Names[places[b]])
		if one != other || one {
			return one && !other
		}
		return r.told[places[a]].isBefore(&r.told[places[b]])
	})
	return places
}

// isDirectory says whether a name is a directory by some record.
func isDirectory(name *forecast.Name) bool {
	return lists.Has(name.Own, func(own *forecast.Record) bool { return isValid(own) && !own.Deleted && own.Type == forecast.Directory })
}

// copyTo takes the steps of a name on a device. What stands in place of a directory is taken away before.
func (r *repair) copyTo(name string, member, from int, what, due *forecast.Node) []advice.Step {
	steps := []advice.Step{{Act: advice.Copy, Device: member, From: from, Name: name}}
	if due.Type == forecast.Directory && what != nil {
		steps = append([]advice.Step{{Act: advice.Delete, Device: member, Name: name}}, steps...)
	}
	for _, step := range steps {
		step.On(&r.world, 0)
	}
	return steps
}

// hasDirectoryAbove says whether something can be copied to a name on a device as things are after the steps so far.
func (r *repair) hasDirectoryAbove(member int, name string) bool {
	above := path.Dir(name)
	if above == "." {
		return true
	}
	what := r.world.At(member, above)
	if what == nil {
		isAbove := func(name forecast.Name) bool { return name.Name == above }
		return !lists.Has(r.group.Names, isAbove) && r.hasDirectoryAbove(member, above)
	}
	return what.Type == forecast.Directory
}

// isHarmed says whether what stands on a device's disk, or what doesn't stand there, looks like damage to what the device recorded. Something that is
// missing, or that stands in place of a directory, may be somebody's change: it counts only where something is lost by it.
func (r *repair) isHarmed(name *forecast.Name, member int, what *forecast.Node, told *Name) bool {
	own := name.Own[member]
	if own == nil || own.Flag != forecast.Valid || own.Deleted {
		return false
	}
	switch {
	case own.Type == forecast.Directory && (what == nil || what.Type != forecast.Directory):
		return losesBelow(r.group, r.told, name.Name)
	case what == nil:
		return told.Fate == Lost
	case own.Type != forecast.File || what.Type != forecast.File:
		return false
	}
	kind := damage.None
	if was := name.Disk[member]; was != nil && *was == *what {
		kind = kindOf(r.damage, name.Name, member)
	}
	return !kind.MayBeOfRecord() && (kind != damage.None || isRot(own, what))
}

// dueOf gives what is to stand at a name, and a device that has it: a change that no scan has seen yet, or else what was recorded last. It gives
// nothing where that is a deletion, where nobody has it, and where nobody can tell what is right.
func (r *repair) dueOf(name *forecast.Name, told *Name) (*forecast.Node, int) {
	var last *forecast.Record
	var due *forecast.Node
	from := -1
	for member, what := range name.Disk {
		own := name.Own[member]
		switch {
		case kindOf(r.damage, name.Name, member).MayBeOfRecord():
			return nil, -1
		case own == nil || own.Flag != forecast.Valid || r.group.Devices[member].Kind == forecast.ReceiveOnly:
		case showsChange(own, what) && !r.isHarmed(name, member, what, told):
			if from < 0 || due.Time < what.Time {
				due, from = what, member
			}
		}
		if isValid(own) && isLater(own, last) {
			last = own
		}
	}
	if from < 0 && last != nil && !last.Deleted {
		due, from = r.holderOf(name, last)
	}
	if due != nil && isEmptyBesideBytes(name, due) {
		return nil, -1
	}
	return due, from
}

// isLater says whether a record takes the place of another one, as Syncthing chooses.
func isLater(own, other *forecast.Record) bool {
	switch {
	case other == nil || other.IsBelow(own):
		return true
	case own.IsAtMost(other):
		return false
	case own.Deleted != other.Deleted:
		return other.Deleted
	}
	return own.Time > other.Time
}

// holderOf gives what is recorded, as it stands on a disk, and the device: of a directory the one below which least is otherwise than it is due,
// and of these the one with most of it.
func (r *repair) holderOf(name *forecast.Name, record *forecast.Record) (*forecast.Node, int) {
	var due *forecast.Node
	from, least, most := -1, 0, 0
	for member, what := range name.Disk {
		if what == nil || !isOf(record, thingOf(what)) {
			continue
		}
		others, count := 0, 0
		if what.Type == forecast.Directory {
			others, count = r.countBelow(member, name.Name)
		}
		if from < 0 || others < least || others == least && count > most {
			due, from, least, most = what, member, others, count
		}
	}
	return due, from
}

// countBelow counts what stands below a name on a device's disk and isn't due there, and what is.
func (r *repair) countBelow(member int, name string) (others, count int) {
	for place := range r.group.Names {
		other := &r.group.Names[place]
		what := other.Disk[member]
		if what == nil || !isBelow(other.Name, name) || what.Type == forecast.Directory {
			continue
		}
		if due, _ := r.dueOf(other, &r.told[place]); due == nil || !thingOf(what).IsLike(thingOf(due)) {
			others++
		} else {
			count++
		}
	}
	return others, count
}

func isBelow(name, above string) bool { return strings.HasPrefix(name, above+"/") }

// tell gives each name its plan. Those without steps of their own are among what is below a directory that is copied.
func (r *repair) tell(plans map[int]*Plan) {
	for _, hand := range r.hands {
		plan := plans[hand.place]
		switch {
		case len(hand.steps) == 0:
			plan.Steps = nil
		case hand.goal.Node.Type == forecast.Directory:
			plan.Below = r.namesBelow(hand.goal.Name)
		}
		r.told[hand.place].Plan = plan
	}
}

func (r *repair) namesBelow(name string) int64 {
	return int64(len(lists.Where(r.hands, func(hand hand) bool { return isBelow(hand.goal.Name, name) })))
}
