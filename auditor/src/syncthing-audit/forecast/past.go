package forecast

import "syncthing-audit/lists"

// Versions says whether a device keeps old versions of what its Syncthing replaces or deletes by itself.
type Versions uint8

const (
	VersionsUntold Versions = iota
	VersionsNone
	VersionsKept
	VersionsExternal // a command takes them, of which nothing is known
)

// At is a name on a device's disk.
type At struct {
	Device int
	Name   string
}

// What happened at a name on a device's disk, and no disk shows.
const (
	isArchived = 1 << iota // the file that stood there at first went to old versions
	isDropped              // what .stignore keeps out with (?d) in the directory was deleted
)

// keepPast has states tell that, if any of it may happen.
func (l *loader) keepPast() {
	l.hasPast = lists.Has(l.devices, func(device Device) bool { return device.Versions == VersionsKept }) || lists.Has(l.names, func(n name) bool { return n.drops != 0 })
	if l.hasPast {
		l.nameCells += len(l.devices)
	}
}

// happen notes what happened.
func (s *state) happen(i, n int, what int32) {
	cell := s.pastCell(i, n)
	s.set(cell, s.get(cell)|what)
}

// takeAway is Syncthing's Archive where the device keeps old versions, and else a removal: of what is replaced or deleted, and of a file that was renamed. Syncthing
// keeps no versions of symlinks.
func (p *pull) takeAway(n int) {
	what := p.at(p.i, n)
	if first := p.first[p.diskCell(p.i, n)]; p.device().Versions == VersionsKept && what.kind == File && first.kind == File && what.content == first.content {
		p.happen(p.i, n, isArchived)
	}
	p.remove(p.i, n)
}

// drop deletes what .stignore keeps out with (?d) in a directory and in those below it. Syncthing does so before it looks whether the directory may go.
func (p *pull) drop(n int) {
	for below := range p.names {
		if p.names[below].drops.Has(p.i) && (below == n || p.isBelow(below, n)) && p.at(p.i, below).kind == Directory {
			p.happen(p.i, below, isDropped)
		}
	}
}

// keepFirst notes what stands on the disks at first.
func (s *state) keepFirst() {
	if !s.hasPast {
		return
	}
	for n := range s.names {
		for i := range s.devices {
			if what := s.disk(i, n); what.isThere() {
				s.first[s.diskCell(i, n)] = *what
			}
		}
	}
}

// pastOf gives where something of this kind happened.
func (s *state) pastOf(what int32, count int) (past []noted) {
	if !s.hasPast {
		return nil
	}
	for i := range s.devices {
		for n := 0; n < count; n++ {
			if s.get(s.pastCell(i, n))&what != 0 {
				past = append(past, noted{device: i, n: n})
			}
		}
	}
	return past
}
