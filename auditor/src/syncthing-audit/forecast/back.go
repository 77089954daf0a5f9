package forecast

import (
	"fmt"
	"path"
)

// Settle has some devices of a world run until nothing changes any more among them, in one order, and gives the world that comes of it. The
// clock is the time of what is done, in seconds. It must be above all times and counters of the world, and rise by some from call to call. Revert and Override
// are carried out behind that, and their consequences are waited for.
func Settle(world World, devices []int, clock int64, commands ...Command) World {
	names := append([]Name{}, world.Names...)
	sortNames(names)
	l := newLoader(world.Devices, names)
	starts, _ := l.start(names).withLists()
	s := starts[0]
	s.may = 0
	for _, i := range devices {
		s.may |= 1 << i
	}
	s = s.rested()
	for _, command := range commands {
		command.on(s)
		s = s.rested()
	}
	return World{Devices: world.Devices, Names: l.back(s, names, clock)}
}

// Command is a command to a running device.
type Command struct {
	Device     int
	IsOverride bool // and else a Revert
}

func (c Command) on(s *state) {
	if c.IsOverride {
		s.override(c.Device)
	} else {
		s.revert(c.Device)
	}
}

// rested takes steps, always the first that changes something, until nothing changes any more.
func (s *state) rested() *state {
	state := s.copied()
	state.draw = drawFirst
	for range [mostSteps]struct{}{} {
		if !state.takesOne(state.actions()) && !state.takesOne(state.rescans()) {
			break
		}
	}
	state.draw = nil
	return state
}

// drawFirst draws the first of what may be drawn.
func drawFirst(int) int { return 0 }

func (s *state) takesOne(actions []action) bool {
	before := s.copied()
	for _, act := range actions {
		act(s)
		if !s.isSame(before) {
			return true
		}
	}
	return false
}

// back gives the names of a state in the words of the world that a loader took. What the model made gets names, times and counters of now.
func (l *loader) back(s *state, names []Name, clock int64) []Name {
	b := back{loader: l, clock: clock, values: map[Counter]uint64{}, numbers: map[uint64]uint64{}}
	for number, rank := range l.numbers {
		b.numbers[rank] = number
	}
	for counter, rank := range l.counters {
		b.values[Counter{l.numbers[counter.Device], rank}] = counter.Value
	}
	next := make([]Name, 0, len(s.names))
	for n := range s.names {
		next = append(next, b.name(s, n, names))
	}
	return next
}

type back struct {
	*loader
	clock   int64
	values  map[Counter]uint64
	numbers map[uint64]uint64
}

func (b *back) name(s *state, n int, names []Name) Name {
	count := len(s.devices)
	name := Name{Name: b.nameOf(n, names), Own: make([]*Record, count), Views: make([][]*Record, count), Disk: make([]*Node, count), Holds: b.names[n].holds, Bars: b.names[n].bars, Ignored: b.ignored(s, n, names)}
	for i := range s.devices {
		name.Views[i] = make([]*Record, count)
		name.Own[i] = b.record(s.own(i, n))
		for j := range s.devices {
			if j != i {
				name.Views[i][j] = b.record(s.recordAt(i, j, n))
			}
		}
		if what := s.at(i, n); what.isThere() {
			node := b.nodeBack(*what)
			node.Time = b.time(what.time)
			name.Disk[i] = &node
		}
	}
	return name
}

// ignored gives what .stignore keeps out with (?d), where it didn't go.
func (b *back) ignored(s *state, n int, names []Name) []Ignored {
	if b.names[n].drops == 0 {
		return nil
	}
	left := append([]Ignored{}, names[n].Ignored...)
	for i := range left {
		if s.get(s.pastCell(i, n))&isDropped != 0 {
			left[i] = Ignored{}
		}
	}
	return left
}

// nameOf gives a name, or one as Syncthing gives it to a conflict copy.
func (b *back) nameOf(n int, names []Name) string {
	if n < len(names) {
		return names[n].Name
	}
	root := b.nameOf(b.names[n].root, names)
	extension := path.Ext(root)
	stamp := fmt.Sprintf("%s20000101-%06d-AAAAAA%c", marker, (b.clock*100+int64(n-len(names)))%1000000, 'A'+rune(b.names[n].device))
	return root[:len(root)-len(extension)] + stamp + extension
}

func (b *back) record(of *record) *Record {
	if !of.isThere() {
		return nil
	}
	record := &Record{Type: of.kind, Deleted: of.deleted, Flag: of.flag, Time: b.time(of.time), Content: b.content[of.content],
		Target: b.target[of.target], Mode: int(of.mode)}
	for _, counter := range b.vectors[of.version] {
		value, is := b.values[counter]
		if !is {
			value = uint64(b.clock) + counter.Value - presentTime
		}
		record.Version = append(record.Version, Counter{b.numbers[counter.Device], value})
	}
	return record
}

func (b *back) time(rank int64) int64 {
	if rank >= presentTime {
		return b.clock*1e9 + rank - presentTime
	}
	if b.times == nil {
		return rank
	}
	return b.timesByRank[rank+b.epoch]
}
