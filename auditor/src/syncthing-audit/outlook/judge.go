package outlook

import (
	"fmt"
	"sort"

	"golang.org/x/exp/maps"
	"golang.org/x/exp/slices"
	"syncthing-audit/damage"
	"syncthing-audit/forecast"
	"syncthing-audit/lists"
	"syncthing-audit/part"
)

// judge says what becomes of names that hang together, by all their ends.
type judge struct {
	group  *forecast.World
	answer *forecast.Answer
	damage map[string][]damage.Kind          // of names: why what stands on a disk looks like damage
	ends   []map[string][]Thing              // of each end: what stands at each name, with its copies
	bytes  []map[forecast.Content]bool       // of each end: all files' bytes
	sure   []map[forecast.Content]bool       // of each end: those that stay even where copies meet
	kept   []map[string]map[int]forecast.Why // of each end: why devices keep a name
}

func newJudge(group *forecast.World, answer *forecast.Answer, damaged map[string][]damage.Kind) *judge {
	j := &judge{group: group, answer: answer, damage: damaged}
	for place := range answer.Ends {
		end := &answer.Ends[place]
		j.ends = append(j.ends, thingsOf(group.Devices, end))
		j.bytes = append(j.bytes, end.Contents())
		j.sure = append(j.sure, sureBytesOf(j.ends[place]))
		j.kept = append(j.kept, keptOf(end))
	}
	return j
}

func keptOf(end *forecast.End) map[string]map[int]forecast.Why {
	kept := map[string]map[int]forecast.Why{}
	for _, all := range [][]forecast.Stuck{end.Apart, end.Stuck} {
		for _, stuck := range all {
			if kept[stuck.Name] == nil {
				kept[stuck.Name] = map[int]forecast.Why{}
			}
			kept[stuck.Name][stuck.Device] = stuck.Why
		}
	}
	return kept
}

// name says what becomes of a name.
func (j *judge) name(name *forecast.Name) Name {
	told := Name{Name: part.Bytes(name.Name), IsAll: j.answer.IsAll, Ends: j.endsOf(name), Loses: j.goesBy(name, byNothing), Kept: j.keptOf(name), Now: thingsNow(j.group.Devices, name)}
	told.certain = j.losesWithoutMeeting(name, told.Loses)
	told.Loses = append(told.Loses, j.dropped(name)...)
	if lists.Has(told.Ends, isEmptyEnd) {
		told.deleted = filesOf(j.goesBy(name, byRecord))
	}
	switch {
	case len(told.Loses) > 0:
		told.Fate = Lost
	case len(told.Ends) > 1:
		told.Fate = Depends
	case len(told.Kept) > 0:
		told.Fate = Stays
	case len(j.goesBy(name, byUnscanned)) > 0 || len(told.Ends[0]) == 0 && isMissingEverywhere(name):
		told.Fate = Changed
	case len(told.Ends[0]) == 0 && isOnSomeDisk(name):
		told.Fate = Deleted
	default:
		told.Fate = ByItself
	}
	return told
}

// endsOf gives the different ends of a name. A time that isn't the same each time a name comes to an end isn't told.
func (j *judge) endsOf(name *forecast.Name) [][]Thing {
	var ends [][]Thing
	seen := map[string]int{}
	for _, end := range j.ends {
		for _, things := range withMeetings(end[name.Name]) {
			key := ""
			for _, thing := range things {
				key += fmt.Sprint(thing.Devices, thing.Type, thing.Content, thing.Target, thing.IsCopy, ";")
			}
			if at, is := seen[key]; is {
				dropOtherTimes(ends[at], things)
			} else {
				seen[key] = len(ends)
				ends = append(ends, append([]Thing{}, things...))
			}
		}
	}
	return ends
}

// dropOtherTimes takes away the times that aren't those of the same things.
func dropOtherTimes(things, same []Thing) {
	for at := range things {
		if one, other := things[at].Modified, same[at].Modified; one == nil || other == nil || !one.Equal(*other) {
			things[at].Modified = nil
		}
	}
}

// keptOf gives why devices keep a name otherwise than others: all reasons that there are at some end.
func (j *judge) keptOf(name *forecast.Name) []Kept {
	found := map[Kept]int{}
	for place := range j.ends {
		for member, why := range j.keptAt(place, name) {
			found[Kept{Device: j.group.Devices[member].ID, Why: why, member: member}]++
		}
	}
	var all []Kept
	for kept, ends := range found {
		kept.InSome = ends < len(j.ends)
		all = append(all, kept)
	}
	sort.Slice(all, func(a, b int) bool {
		return all[a].member < all[b].member || all[a].member == all[b].member && all[a].Why < all[b].Why
	})
	return all
}

// keptAt gives why devices keep a name otherwise than others at an end: where they end with one thing all of it is well, unless these are other bytes
// than recorded, and no scan sees it.
func (j *judge) keptAt(place int, name *forecast.Name) map[int]forecast.Why {
	things, kept := j.ends[place][name.Name], j.kept[place][name.Name]
	if isOne(things, len(name.Disk)) && !isStuck(&j.answer.Ends[place], name.Name) && !slices.Contains(maps.Values(kept), forecast.NotSeen) {
		return nil
	}
	if len(kept) > 0 {
		return kept
	}
	differing := map[int]forecast.Why{}
	for _, member := range j.minority(things) {
		differing[member] = Differs
	}
	return differing
}

// isOne says whether one thing stands at a name on all devices, or nothing on each.
func isOne(things []Thing, devices int) bool {
	place := slices.IndexFunc(things, func(thing Thing) bool { return !thing.IsCopy })
	return place < 0 || len(things[place].Devices) == devices
}

func isStuck(end *forecast.End, name string) bool {
	return lists.Has(end.Stuck, func(stuck forecast.Stuck) bool { return stuck.Name == name })
}

// minority gives the devices that don't have what most devices have at a name.
func (j *judge) minority(things []Thing) []int {
	var most []string
	left := len(j.group.Devices)
	for place := range things {
		if things[place].IsCopy {
			continue
		}
		if left -= len(things[place].Devices); len(things[place].Devices) > len(most) {
			most = things[place].Devices
		}
	}
	isOfMost := func(device string) bool { return slices.Contains(most, device) }
	if len(most) < left {
		isOfMost = func(device string) bool { return !stands(things, device) }
	}
	var few []int
	for member, device := range j.group.Devices {
		if !isOfMost(device.ID) {
			few = append(few, member)
		}
	}
	return few
}

// isMissingEverywhere says whether nothing stands at a name on any disk, while a device has something recorded that no recorded deletion came after.
func isMissingEverywhere(name *forecast.Name) bool {
	isThere := func(own *forecast.Record) bool {
		return isValid(own) && !own.Deleted && !lists.Has(name.Own, func(other *forecast.Record) bool { return isValid(other) && other.Deleted && own.IsBelow(other) })
	}
	return !isOnSomeDisk(name) && lists.Has(name.Own, isThere)
}

func isOnSomeDisk(name *forecast.Name) bool {
	return nodeWhere(name, func(*forecast.Node) bool { return true }) != nil
}

// staysAsItIs says whether each device goes on having what it has at a name.
func (j *judge) staysAsItIs(name *forecast.Name, told *Name) bool {
	if len(told.Ends) != 1 || told.Fate != ByItself {
		return false
	}
	for member, what := range name.Disk {
		device := j.group.Devices[member].ID
		isSame := func(thing Thing) bool { return slices.Contains(thing.Devices, device) && thing.IsSame(thingOf(what)) }
		if what == nil && stands(told.Ends[0], device) || what != nil && !lists.Has(told.Ends[0], isSame) {
			return false
		}
	}
	return true
}
