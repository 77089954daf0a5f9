package forecast

import "math/bits"

// A list is Syncthing's VersionList: the versions that a device knows of a name, and which devices have each. The first one with a valid
// device is the one that prevails. Where each entry stands depends on the order in which devices told their records.
type list []version

type version struct {
	version        int32
	valid, invalid uint32 // sets of devices
}

// first gives a device of this version.
func (v version) first() int {
	if v.valid != 0 {
		return bits.TrailingZeros32(v.valid)
	}
	return bits.TrailingZeros32(v.invalid)
}

// without gives the list without a device.
func (l list) without(j int) list {
	rest := make(list, 0, len(l)+1)
	for _, entry := range l {
		entry.valid &^= 1 << j
		entry.invalid &^= 1 << j
		if entry.valid|entry.invalid != 0 {
			rest = append(rest, entry)
		}
	}
	return rest
}

// add adds a device's record to a list that is without the device.
func (s *state) add(l list, i, j, n int, entry *record) list {
	fresh := version{version: entry.version, valid: 1 << j}
	if entry.isInvalid() {
		fresh = version{version: entry.version, invalid: 1 << j}
	}
	for place := range l {
		order := s.order(l[place].version, entry.version)
		if order == equal {
			l[place].valid |= fresh.valid
			l[place].invalid |= fresh.invalid
			return l
		}
		if s.standsBefore(order, l[place], i, n, entry) {
			l = append(l, version{})
			copy(l[place+1:], l[place:])
			l[place] = fresh
			return l
		}
	}
	return append(l, fresh)
}

// standsBefore is Syncthing's shouldInsertBefore.
func (s *state) standsBefore(order int, there version, i, n int, entry *record) bool {
	switch order {
	case lesser:
		return true
	case concurrentLesser, concurrentGreater:
		if isInvalid := there.valid == 0; isInvalid != entry.isInvalid() {
			return isInvalid
		}
		return s.winsConflict(entry, s.recordAt(i, there.first(), n))
	}
	return false
}

// put sets what device i has of device j's record, or its own. Without a record it takes it away.
func (s *state) put(i, j, n int, entry record) {
	cell := s.viewCell(i, j, n)
	if i == j {
		cell = s.ownCell(i, n)
	}
	old := &s.records[s.get(cell)]
	if old.isThere() && entry.isThere() && old.version == entry.version && old.flag == entry.flag {
		return
	}
	l := s.lists[s.get(s.listCell(i, n))].without(j)
	if !entry.isThere() {
		s.set(cell, 0)
	} else {
		s.set(cell, s.recordNumber(entry))
		l = s.add(l, i, j, n, &entry)
	}
	s.set(s.listCell(i, n), s.listNumber(l))
}

// global gives the record that prevails as a device knows it, and which devices have it. It is none's where all are invalid.
func (s *state) global(i, n int) (entry *record, have uint32) {
	l := s.lists[s.get(s.listCell(i, n))]
	if len(l) == 0 {
		return &s.records[0], 0
	}
	for _, version := range l {
		if version.valid != 0 {
			return s.recordAt(i, version.first(), n), version.valid
		}
	}
	return s.recordAt(i, l[0].first(), n), 0
}

// need gives what a device is to pull of a name, or nothing.
func (s *state) need(i, n int) *record {
	entry, have := s.global(i, n)
	own := s.own(i, n)
	if have == 0 || entry.version == 0 || entry.deleted && !own.isThere() {
		return &s.records[0]
	}
	if own.isThere() {
		if order := s.order(own.version, entry.version); order == greater || order == equal {
			return &s.records[0]
		}
	}
	return entry
}
