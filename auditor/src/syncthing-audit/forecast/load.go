package forecast

import (
	"path"
	"sort"
	"strings"
)

// A loader gives numbers to what a world has. Only what Syncthing compares goes into them: which times and counters are greater, and not
// how great they are. So worlds that are alike have equal numbers, and one answer.
type loader struct {
	*machine
	times       map[int64]int64
	timesByRank []int64
	epoch       int64 // its place among these
	counters    map[Counter]uint64
	numbers     map[uint64]uint64 // of devices
	sizeOf      map[int64]int64
	contents    map[Content]int32
	targets     map[string]int32
	content     []Content // by their numbers
	target      []string
}

// marker stands in the name of each conflict copy.
const marker = ".sync-conflict-"

// isConflictCopy is Syncthing's isConflict.
func isConflictCopy(name string) bool { return strings.Contains(path.Base(name), marker) }

// rootOf gives what a conflict copy is a copy of, by its name.
func rootOf(name string) string {
	at := strings.LastIndex(name, marker)
	rest := name[at+len(marker):]
	const stamp = len("20060102-150405-")
	if len(rest) < stamp {
		return ""
	}
	if dot := strings.LastIndexByte(rest, '.'); dot >= 0 {
		return name[:at] + rest[dot:]
	}
	return name[:at]
}

// RootOfCopy gives what a conflict copy is a copy of, by its name; nothing of other names.
func RootOfCopy(name string) string {
	if !isConflictCopy(name) {
		return ""
	}
	return rootOf(name)
}

// newLoader makes the machine of a world, whose names rise.
func newLoader(devices []Device, names []Name) *loader {
	l := &loader{machine: newMachine(devices), contents: map[Content]int32{}, targets: map[string]int32{},
		sizeOf: map[int64]int64{0: 0}, content: make([]Content, 1), target: make([]string, 1)}
	l.nameAll(names)
	l.keepPast()
	l.rankTimes(names)
	l.rankCounters(names)
	return l
}

func (l *loader) nameAll(names []Name) {
	places := make(map[string]int, len(names))
	for place := range names {
		places[names[place].Name] = place
	}
	for place := range names {
		added := name{parent: -1, root: place, isCopy: isConflictCopy(names[place].Name), holds: names[place].Holds, bars: names[place].Bars, drops: names[place].ignores()}
		for above := path.Dir(names[place].Name); above != "."; above = path.Dir(above) {
			if found, is := places[above]; is {
				added.parent = found
				break
			}
		}
		if added.isCopy {
			if found, is := places[rootOf(names[place].Name)]; is {
				added.root = found
			}
		}
		l.names = append(l.names, added)
	}
}

// eachRecord calls for each record of these names.
func eachRecord(names []Name, call func(*Record)) {
	for place := range names {
		for i, own := range names[place].Own {
			if own != nil {
				call(own)
			}
			for _, view := range names[place].Views[i] {
				if view != nil {
					call(view)
				}
			}
		}
	}
}

// rankTimes gives each time its rank. The epoch has rank 0: Syncthing gives no time to a symlink, and takes that for it. Where times within
// a window are one, they stay as they are.
func (l *loader) rankTimes(names []Name) {
	for place := range l.devices {
		if l.devices[place].TimeWindow > 0 {
			return
		}
	}
	all := []int64{0}
	eachRecord(names, func(r *Record) { all = append(all, r.Time) })
	for place := range names {
		for _, what := range names[place].Disk {
			if what != nil {
				all = append(all, what.Time)
			}
		}
	}
	sort.Slice(all, func(a, b int) bool { return all[a] < all[b] })
	l.times = make(map[int64]int64, len(all))
	for _, time := range all {
		if count := len(l.timesByRank); count == 0 || time != l.timesByRank[count-1] {
			l.timesByRank = append(l.timesByRank, time)
		}
	}
	l.epoch = int64(sort.Search(len(l.timesByRank), func(place int) bool { return l.timesByRank[place] >= 0 }))
	for place, time := range l.timesByRank {
		l.times[time] = int64(place) - l.epoch
	}
}

func (l *loader) time(time int64) int64 {
	if l.times == nil {
		return time
	}
	return l.times[time]
}

// rankCounters gives each device its rank among those that versions count, and each counter its rank among all: only those of one device are compared.
func (l *loader) rankCounters(names []Name) {
	var all []Counter
	eachRecord(names, func(r *Record) { all = append(all, r.Version...) })
	for _, device := range l.devices {
		all = append(all, Counter{device.Number, 0})
	}
	sort.Slice(all, func(a, b int) bool {
		return all[a].Device < all[b].Device || all[a].Device == all[b].Device && all[a].Value < all[b].Value
	})
	l.counters, l.numbers = make(map[Counter]uint64, len(all)), make(map[uint64]uint64, len(l.devices))
	rank := uint64(0)
	for place, counter := range all {
		if place == 0 || all[place-1].Device != counter.Device {
			l.numbers[counter.Device] = uint64(len(l.numbers) + 1)
		}
		if counter.Value > 0 && (place == 0 || all[place-1] != counter) {
			rank++
		}
		l.counters[counter] = rank
	}
	l.devices = append([]Device{}, l.devices...)
	for place := range l.devices {
		l.devices[place].Number = l.numbers[l.devices[place].Number]
	}
}

func (l *loader) versionOf(version []Counter) int32 {
	counters := make([]Counter, 0, len(version))
	for _, counter := range version {
		if counter.Value > 0 {
			counters = append(counters, Counter{l.numbers[counter.Device], l.counters[counter]})
		}
	}
	return l.vectorNumber(counters)
}

func (l *loader) contentOf(content Content) int32 {
	if content.Hash == "" {
		return 0
	}
	number, is := l.contents[content]
	if !is {
		number = int32(len(l.content))
		size, is := l.sizeOf[content.Size]
		if !is {
			size = int64(len(l.sizeOf))
			l.sizeOf[content.Size] = size
		}
		l.contents[content] = number
		l.content, l.sizes = append(l.content, content), append(l.sizes, size)
	}
	return number
}

func (l *loader) targetOf(target string) int32 {
	if target == "" {
		return 0
	}
	number, is := l.targets[target]
	if !is {
		number = int32(len(l.target))
		l.targets[target] = number
		l.target = append(l.target, target)
	}
	return number
}
