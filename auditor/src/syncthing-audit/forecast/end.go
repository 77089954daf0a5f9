package forecast

import (
	"encoding/binary"
	"math"
	"sort"

	"syncthing-audit/lists"
)

// Now is the time of what Syncthing or a scan makes later.
const Now = math.MaxInt64

// End is one state in which nothing changes any more.
type End struct {
	Disks [][]Place // of each device: what stands on its disk, by name, copies behind their name; of copies with the same bytes there is one
	Stuck []Stuck
	Apart []Stuck // names that a device needs nothing of, and keeps otherwise than others may have them

	Dropped  []At `json:",omitempty"` // directories of which what .stignore keeps out with (?d) went on the way
	Versions []At `json:",omitempty"` // files that stood there at first, and went to the device's old versions on the way
}

// Contents gives the bytes that stand on some disk; those of what has none are one of them.
func (e *End) Contents() map[Content]bool {
	contents := map[Content]bool{}
	for _, disk := range e.Disks {
		for _, place := range disk {
			contents[place.Node.Content] = true
		}
	}
	return contents
}

// Place is what stands at a name, or in a conflict copy of it that Syncthing made.
type Place struct {
	Name   string
	IsCopy bool
	Node   Node
}

// Stuck is a name that a device needs and doesn't take.
type Stuck struct {
	Device int
	Name   string
	Why    Why
}

// numbered is an end by the numbers of a machine.
type numbered struct {
	disks [][]placed
	stuck []Stuck // with the places of names in place of devices' names
	names []int
	apart []noted

	dropped  []noted
	versions []noted
}

type placed struct {
	root   int
	isCopy bool
	what   node
}

// numberedEnd gives the end that a state is.
func (s *state) numberedEnd(count int) numbered {
	end := numbered{disks: make([][]placed, len(s.devices)), apart: s.apart(count), dropped: s.pastOf(isDropped, count), versions: s.pastOf(isArchived, count)}
	for i := range s.devices {
		for n := range s.names {
			if what := s.at(i, n); what.isThere() {
				end.disks[i] = append(end.disks[i], s.placedAt(n, what, count))
			}
		}
		sort.SliceStable(end.disks[i], func(a, b int) bool { return end.disks[i][a].isBefore(&end.disks[i][b]) })
		end.disks[i] = withoutTwins(end.disks[i])
	}
	last := s.copied()
	last.draw = drawFirst
	for i := range s.devices {
		errors := last.copied().pullOn(i)
		for n := range s.names {
			if s.need(i, n).isThere() && !(s.need(i, n).deleted && s.devices[i].IgnoreDelete) {
				end.stuck = append(end.stuck, Stuck{Device: i, Why: errors[n]})
				end.names = append(end.names, s.rootAmong(n, count))
			}
		}
	}
	return end
}

func (s *state) rootAmong(n, count int) int {
	for n >= count {
		n = s.names[n].root
	}
	return n
}

// placedAt gives what stands at a name, which is a copy if the model made it.
func (s *state) placedAt(n int, what *node, count int) placed {
	return placed{root: s.rootAmong(n, count), isCopy: n >= count, what: *what}
}

// withoutTwins takes away copies of a name with the same bytes as the one before.
func withoutTwins(disk []placed) []placed {
	kept := disk[:0]
	for at, placed := range disk {
		if at == 0 || !placed.isCopy || !placed.isTwin(&kept[len(kept)-1]) {
			kept = append(kept, placed)
		}
	}
	return kept
}

func (p *placed) isTwin(other *placed) bool {
	return p.root == other.root && p.isCopy == other.isCopy && p.what.kind == other.what.kind &&
		p.what.content == other.what.content && p.what.target == other.what.target
}

func (p *placed) isBefore(other *placed) bool {
	switch {
	case p.root != other.root:
		return p.root < other.root
	case p.isCopy != other.isCopy:
		return other.isCopy
	case p.what.content != other.what.content:
		return p.what.content < other.what.content
	case p.what.target != other.what.target:
		return p.what.target < other.what.target
	}
	return p.what.time < other.what.time
}

// key gives a text that two ends share if nothing that is told of them differs: kinds, bytes, targets, copies and files' times on all disks, and what devices
// don't take or keep, and why. Two orders may come to the same bytes with other times or for other reasons, and neither is the one that is true.
func (n *numbered) key() string {
	var text []byte
	put := func(numbers ...int64) {
		for _, number := range numbers {
			text = binary.AppendVarint(text, number)
		}
	}
	note := func(device, n int, why Why) {
		put(int64(device), int64(n))
		text = append(append(text, why...), '|')
	}
	for _, disk := range n.disks {
		put(int64(len(disk)))
		for _, placed := range disk {
			what := placed.what
			put(int64(placed.root), truth(placed.isCopy), int64(what.kind), int64(what.content), int64(what.target))
			if what.kind == File {
				put(what.time)
			}
		}
	}
	put(int64(len(n.stuck)))
	for at, stuck := range n.stuck {
		note(stuck.Device, n.names[at], stuck.Why)
	}
	put(int64(len(n.apart)))
	for _, apart := range n.apart {
		note(apart.device, apart.n, apart.why)
	}
	for _, past := range [][]noted{n.dropped, n.versions} {
		put(int64(len(past)))
		for _, at := range past {
			note(at.device, at.n, at.why)
		}
	}
	return string(text)
}

// end gives an end in the words of the world that a loader took.
func (l *loader) end(from *numbered, names []Name) End {
	end := End{Disks: make([][]Place, len(from.disks))}
	for i, disk := range from.disks {
		for _, placed := range disk {
			end.Disks[i] = append(end.Disks[i], Place{Name: names[placed.root].Name, IsCopy: placed.isCopy, Node: l.nodeBack(placed.what)})
		}
	}
	for at, stuck := range from.stuck {
		stuck.Name = names[from.names[at]].Name
		end.Stuck = append(end.Stuck, stuck)
	}
	for _, noted := range from.apart {
		end.Apart = append(end.Apart, Stuck{Device: noted.device, Name: names[noted.n].Name, Why: noted.why})
	}
	at := func(noted noted) At { return At{Device: noted.device, Name: names[noted.n].Name} }
	if len(from.dropped) > 0 {
		end.Dropped = lists.Each(from.dropped, at)
	}
	if len(from.versions) > 0 {
		end.Versions = lists.Each(from.versions, at)
	}
	return end
}

func (l *loader) nodeBack(what node) Node {
	node := Node{Type: what.kind, Mode: int(what.mode), Content: l.content[what.content], Target: l.target[what.target]}
	if what.kind == File {
		node.Time = l.timeBack(what.time)
	}
	return node
}

// timeBack gives the time of a rank.
func (l *loader) timeBack(rank int64) int64 {
	switch {
	case l.times == nil:
		return rank
	case rank >= presentTime:
		return Now
	}
	return l.timesByRank[rank+l.epoch]
}
