package outlook

import (
	"fmt"
	"math/rand"
	"reflect"
	"sort"
	"testing"

	"syncthing-audit/forecast"
)

// folderDevices gives so many devices of a folder that send and receive.
func folderDevices(count int) []forecast.Device {
	devices := make([]forecast.Device, count)
	for place := range devices {
		devices[place].ID = idOf(place)
	}
	return devices
}

// anyDevices are more devices than any folder here has.
var anyDevices = folderDevices(32)

// small draws small things: of few bytes, times and versions, so that what is alike meets often.
type small struct{ *rand.Rand }

var smallContents = []forecast.Content{{}, {Size: 0, Hash: "e"}, {Size: 1, Hash: "x"}, {Size: 1, Hash: "y"}, {Size: 2, Hash: "z"}}

// node draws what stands on a disk; nothing at times.
func (s small) node() *forecast.Node {
	switch s.Intn(8) {
	case 0, 1:
		return nil
	case 2:
		return &forecast.Node{Type: forecast.Directory}
	case 3:
		return &forecast.Node{Type: forecast.Symlink, Target: []string{"x", "y"}[s.Intn(2)]}
	}
	return &forecast.Node{Type: forecast.File, Content: smallContents[1+s.Intn(4)], Time: int64(s.Intn(2))}
}

// record draws a record of such a thing, or of a deletion; nothing at times.
func (s small) record() *forecast.Record {
	if s.Intn(8) == 0 {
		return nil
	}
	made := &forecast.Record{Flag: []forecast.Flag{forecast.Valid, forecast.Valid, forecast.Valid, forecast.LocalChange}[s.Intn(4)]}
	for device := uint64(1); device < 3; device++ {
		if value := uint64(s.Intn(3)); value > 0 {
			made.Version = append(made.Version, forecast.Counter{Device: device, Value: value})
		}
	}
	if node := s.node(); node != nil {
		made.Type, made.Content, made.Target, made.Time = node.Type, node.Content, node.Target, node.Time
	} else {
		made.Deleted = true
	}
	return made
}

// name draws a name at so many devices.
func (s small) name(called string, devices int) *forecast.Name {
	made := &forecast.Name{Name: called, Own: make([]*forecast.Record, devices), Disk: make([]*forecast.Node, devices), Views: make([][]*forecast.Record, devices)}
	for member := range made.Own {
		made.Own[member], made.Disk[member] = s.record(), s.node()
		if own := made.Own[member]; own != nil && !own.Deleted && s.Intn(2) == 0 {
			made.Disk[member] = &forecast.Node{Type: own.Type, Content: own.Content, Target: own.Target, Time: own.Time}
		}
		made.Views[member] = make([]*forecast.Record, devices)
	}
	return made
}

// end draws what stands at the names on each device in the end, with copies, and why devices keep names.
func (s small) end(devices int, names ...string) forecast.End {
	made := forecast.End{Disks: make([][]forecast.Place, devices)}
	isAlike := s.Intn(3) == 0
	for _, name := range names {
		first := s.node()
		for member := range made.Disks {
			node := first
			if !isAlike {
				node = s.node()
			}
			if node != nil {
				made.Disks[member] = append(made.Disks[member], forecast.Place{Name: name, Node: *node})
			}
			for copies := s.Intn(3); copies > 0; copies-- {
				copied := forecast.Node{Type: forecast.File, Content: smallContents[1+(copies+s.Intn(2))%4]}
				made.Disks[member] = append(made.Disks[member], forecast.Place{Name: name, Node: copied, IsCopy: true})
			}
			if s.Intn(5) == 0 {
				made.Apart = append(made.Apart, forecast.Stuck{Device: member, Name: name, Why: []forecast.Why{forecast.OnlySends, forecast.NotSeen}[s.Intn(2)]})
			}
			if s.Intn(6) == 0 {
				made.Stuck = append(made.Stuck, forecast.Stuck{Device: member, Name: name, Why: []forecast.Why{forecast.NoSource, forecast.NotSeen}[s.Intn(2)]})
			}
		}
	}
	return made
}

// keyOf names what stands somewhere, whatever its time.
func keyOf(kind forecast.Type, content forecast.Content, target string, isCopy bool) string {
	return fmt.Sprint(kind, content, target, isCopy)
}

// standsAt gives what stands at a name itself on a device at an end: nothing without it.
func standsAt(end *forecast.End, member int, name string) string {
	for _, place := range end.Disks[member] {
		if place.Name == name && !place.IsCopy {
			return keyOf(place.Node.Type, place.Node.Content, place.Node.Target, false)
		}
	}
	return ""
}

// nowAt gives the same of what stands there now.
func nowAt(name *forecast.Name, member int) string {
	if what := name.Disk[member]; what != nil {
		return keyOf(what.Type, what.Content, what.Target, false)
	}
	return ""
}

// drawn is a name with some ends.
func drawn(seed int64) (s small, group *forecast.World, answer *forecast.Answer) {
	s = small{rand.New(rand.NewSource(seed))}
	devices := 1 + s.Intn(4)
	group = &forecast.World{Devices: folderDevices(devices), Names: []forecast.Name{*s.name("a", devices), *s.name("b", devices)}}
	answer = &forecast.Answer{IsAll: true}
	for count := 1 + s.Intn(3); count > 0; count-- {
		answer.Ends = append(answer.Ends, s.end(devices, "a", "b"))
	}
	return s, group, answer
}

// Each thing at an end is told once, with all devices that have it, in the order of the devices; copies come last.
func TestThingsOfAnEnd(t *testing.T) {
	for seed := int64(0); seed < 500; seed++ {
		_, _, answer := drawn(seed)
		end := &answer.Ends[0]
		due := map[string]map[int]bool{}
		for member, disk := range end.Disks {
			for _, place := range disk {
				key := place.Name + keyOf(place.Node.Type, place.Node.Content, place.Node.Target, place.IsCopy)
				if due[key] == nil {
					due[key] = map[int]bool{}
				}
				due[key][member] = true
			}
		}
		told := 0
		for name, things := range thingsOf(anyDevices, end) {
			for at, thing := range things {
				members := map[int]bool{}
				for _, member := range placesOf(thing.Devices) {
					members[member] = true
				}
				key := name + keyOf(thing.Type, thing.Content, string(thing.Target), thing.IsCopy)
				if !reflect.DeepEqual(members, due[key]) || !sort.IntsAreSorted(placesOf(thing.Devices)) {
					t.Fatalf("%d: %s at %v, not %v", seed, key, thing.Devices, due[key])
				}
				if at > 0 && (things[at-1].IsCopy && !thing.IsCopy || things[at-1].IsCopy == thing.IsCopy && memberOf(things[at-1].Devices[0]) > memberOf(thing.Devices[0])) {
					t.Fatalf("%d: %+v", seed, things)
				}
				told++
			}
		}
		if told != len(due) {
			t.Fatalf("%d: %d things, not %d", seed, told, len(due))
		}
	}
}

// A name stays as it is just where it has one end, comes right by itself, and each device has then what it has now.
func TestWhatStaysAsItIs(t *testing.T) {
	stay := 0
	for seed := int64(0); seed < 3000; seed++ {
		s, group, answer := drawn(seed)
		name := &group.Names[0]
		if s.Intn(2) == 0 { // the end is what stands there now, but maybe on one device
			for member := range answer.Ends[0].Disks {
				answer.Ends[0].Disks[member] = nil
				if what := name.Disk[member]; what != nil && s.Intn(6) > 0 {
					answer.Ends[0].Disks[member] = []forecast.Place{{Name: "a", Node: *what}}
				}
			}
		}
		told := &Name{Fate: []Fate{ByItself, ByItself, Stays}[s.Intn(3)]}
		for place := range answer.Ends[:1+s.Intn(2)*(len(answer.Ends)-1)] {
			told.Ends = append(told.Ends, thingsOf(anyDevices, &answer.Ends[place])["a"])
		}
		due := told.Fate == ByItself && len(told.Ends) == 1
		for member := range name.Disk {
			due = due && nowAt(name, member) == standsAt(&answer.Ends[0], member, "a")
		}
		if is := newJudge(group, answer, nil).staysAsItIs(name, told); is != due {
			t.Fatalf("%d: %v: %+v", seed, is, told)
		}
		if due {
			stay++
		}
	}
	if stay < 100 {
		t.Errorf("%d stay: too few were drawn", stay)
	}
}

// Bytes survive where at each end some disk has them, under whatever name, but in copies that may go; what isn't a file with bytes survives at its name.
func TestWhatSurvives(t *testing.T) {
	survived := map[bool]int{}
	for seed := int64(0); seed < 3000; seed++ {
		_, group, answer := drawn(seed)
		judge := newJudge(group, answer, nil)
		for _, thing := range thingsNow(anyDevices, &group.Names[0]) {
			due := true
			for place := range answer.Ends {
				is := false
				for name, things := range thingsOf(anyDevices, &answer.Ends[place]) {
					for at := range things {
						isSameBytes := things[at].Content == thing.Content && thing.Content.Size > 0
						isSameThing := name == "a" && things[at].Type == thing.Type && things[at].Content == thing.Content && string(things[at].Target) == string(thing.Target)
						is = is || (isSameBytes || isSameThing) && !mayGoByMeeting(things, at)
					}
				}
				due = due && is
			}
			thing := thing
			if is := judge.survives("a", thing); is != due {
				t.Fatalf("%d: %+v survives: %v", seed, thing, is)
			}
			survived[due]++
		}
	}
	if survived[true] < 100 || survived[false] < 100 {
		t.Errorf("%v: too few were drawn", survived)
	}
}

// What stands at a name now is told once each, with all devices that have it.
func TestThingsNow(t *testing.T) {
	for seed := int64(0); seed < 500; seed++ {
		_, group, _ := drawn(seed)
		name, told := &group.Names[0], map[int]string{}
		seen := map[string]bool{}
		for _, thing := range thingsNow(anyDevices, name) {
			key := keyOf(thing.Type, thing.Content, string(thing.Target), false)
			if seen[key] || thing.IsCopy || (thing.Modified != nil) != (thing.Type == forecast.File && name.Disk[memberOf(thing.Devices[0])].Time != forecast.Now) {
				t.Fatalf("%d: %+v", seed, thing)
			}
			seen[key] = true
			for _, member := range placesOf(thing.Devices) {
				told[member] = key
			}
		}
		for member := range name.Disk {
			if told[member] != nowAt(name, member) {
				t.Fatalf("%d: %d has %s, not %s", seed, member, told[member], nowAt(name, member))
			}
		}
	}
}

// Of a name each end is told once, whatever else differs at the ends, and none is missing.
func TestDifferentEnds(t *testing.T) {
	fewer := 0
	for seed := int64(0); seed < 500; seed++ {
		s, group, answer := drawn(seed)
		for count := s.Intn(3); count > 0; count-- {
			answer.Ends = append(answer.Ends, answer.Ends[s.Intn(len(answer.Ends))])
		}
		due, told := map[string]bool{}, map[string]bool{}
		textOf := func(things []Thing) string {
			text := ""
			for _, thing := range things {
				text += fmt.Sprint(placesOf(thing.Devices), keyOf(thing.Type, thing.Content, string(thing.Target), thing.IsCopy))
			}
			return text
		}
		for place := range answer.Ends {
			for _, things := range withMeetings(thingsOf(anyDevices, &answer.Ends[place])["a"]) {
				due[textOf(things)] = true
			}
		}
		ends := newJudge(group, answer, nil).endsOf(&group.Names[0])
		for _, things := range ends {
			told[textOf(things)] = true
		}
		if len(ends) != len(due) || !reflect.DeepEqual(told, due) {
			t.Fatalf("%d: %d ends, not %d", seed, len(ends), len(due))
		}
		fewer += count(len(due) < len(answer.Ends))
	}
	if fewer < 20 {
		t.Errorf("%d had an end twice: too few were drawn", fewer)
	}
}
