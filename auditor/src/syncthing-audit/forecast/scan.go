package forecast

// everything has a scan go over the whole folder.
var everything map[int]bool

// scan has a device scan its folder, or only these names with what is below them.
func (s *state) scan(i int, names map[int]bool) {
	names = s.withParents(i, names)
	s.scanFound(i, names)
	s.scanMissing(i, names)
}

// withParents gives for each name the highest directory above it that the device hasn't recorded, or the name: Syncthing's unifySubs.
func (s *state) withParents(i int, names map[int]bool) map[int]bool {
	all := make(map[int]bool, len(names))
	for n := range names {
		for above := s.names[n].parent; above >= 0 && !s.own(i, above).isThere(); above = s.names[above].parent {
			n = above
		}
		all[n] = true
	}
	return all
}

// isScanned says whether a name is one of these, or below one.
func (s *state) isScanned(n int, names map[int]bool) bool {
	for at := n; at >= 0; at = s.names[at].parent {
		if names[at] {
			return true
		}
	}
	return len(names) == 0
}

// byContent gives the files that a device recorded, by their bytes.
func (s *state) byContent(i int) map[int32][]int {
	places := map[int32][]int{}
	for n := range s.names {
		if own := s.own(i, n); own.kind == File && !own.deleted && own.flag == Valid && own.content != 0 {
			places[own.content] = append(places[own.content], n)
		}
	}
	return places
}

// globals are the records that prevail at a device, as they were when a step began.
type globals func(n int) (*record, bool)

func (s *state) globals(i int) globals {
	before := s.copied()
	return func(n int) (*record, bool) {
		entry, _ := before.global(i, n)
		return entry, entry.isThere()
	}
}

// scanFound takes what stands on the disk.
func (s *state) scanFound(i int, names map[int]bool) {
	var found []int
	for n := range s.names {
		if what := s.at(i, n); what.isThere() && s.isScanned(n, names) && !s.isUnchanged(i, n, what) {
			found = append(found, n)
		}
	}
	if len(found) == 0 {
		return
	}
	before := s.globals(i)
	old := s.copied()
	r := renames{old, old.byContent(i), before, map[int]bool{}}
	for _, n := range found {
		entry := old.found(i, n)
		s.update(i, n, entry, before)
		if s.devices[i].Kind != ReceiveOnly {
			s.findRename(i, n, &entry, &r)
		}
	}
}

// isUnchanged says whether a scan passes over what it finds.
func (s *state) isUnchanged(i, n int, what *node) bool {
	own := s.own(i, n)
	if !own.isThere() {
		return false
	}
	found := s.ofNode(what)
	ignored := comparison{permissions: s.devices[i].IgnorePermissions, bytes: true, window: s.devices[i].TimeWindow}
	if s.devices[i].Kind == ReceiveOnly {
		ignored.localChange = true
		found.flag = LocalChange
	}
	return s.isEquivalent(own, &found, ignored)
}

// found gives the record of what a scan finds.
func (s *state) found(i, n int) record {
	own, device := s.own(i, n), &s.devices[i]
	entry := s.ofNode(s.disk(i, n))
	vector := raised(s.vectors[own.version], device.Number)
	if device.Kind == ReceiveOnly {
		entry.flag = LocalChange
	}
	if own.flag == LocalChange && (entry.flag == Valid || device.Release.dropsOthers()) {
		vector = ofDevice(vector, device.Number)
	}
	if device.IgnorePermissions {
		entry.mode = NoMode
	}
	entry.version = s.vectorNumber(vector)
	return entry
}

// update is Syncthing's scanBatch.Update.
func (s *state) update(i, n int, entry record, before globals) {
	device := &s.devices[i]
	if global, is := before(n); is {
		ignored := comparison{localChange: true, window: device.TimeWindow}
		if device.Release.mergesOtherBytes() {
			ignored.bytes, ignored.permissions = true, device.IgnorePermissions
		}
		switch {
		case global.flag == LocalChange:
			if entry.deleted {
				entry = record{}
			}
		case device.Release.mergesIn(device.Kind) && s.isEquivalent(global, &entry, ignored):
			entry = *global
		}
	}
	s.put(i, i, n, entry)
}

// renames is what a scan needs to find what was renamed.
type renames struct {
	old    *state          // as it was when the scan began
	files  map[int32][]int // those recorded then, by their bytes
	before globals
	used   map[int]bool // those that were found
}

// findRename takes the record of a file with the same bytes that is gone for deleted.
func (s *state) findRename(i, n int, entry *record, r *renames) {
	if s.sizes[entry.content] == 0 {
		return
	}
	for _, other := range r.files[entry.content] {
		if other == n || s.at(i, other).isThere() {
			continue
		}
		if s.noteTied(n, other); !r.used[other] {
			r.used[other] = true
			s.update(i, other, s.gone(i, other, r.old.own(i, other)), r.before)
			return
		}
	}
}

// gone gives the record of what a scan doesn't find any more.
func (s *state) gone(i, n int, own *record) record {
	entry := s.deletedBy(*own, i, n)
	entry.flag = Valid
	if s.devices[i].Kind == ReceiveOnly {
		entry.flag = LocalChange
	}
	if own.flag == LocalChange {
		entry.version = 0
	}
	return entry
}

// scanMissing takes what isn't there any more for deleted.
func (s *state) scanMissing(i int, names map[int]bool) {
	var before globals
	for n := range s.names {
		own := s.own(i, n)
		if !own.isThere() || !s.isScanned(n, names) || own.deleted && own.flag != LocalChange || s.at(i, n).isThere() {
			continue
		}
		if before == nil {
			before = s.globals(i)
		}
		if own.deleted {
			s.settle(i, n, own, before)
		} else {
			s.update(i, n, s.gone(i, n, own), before)
		}
	}
}

// settle is what a scan does with a local deletion of a device that only receives, or did.
func (s *state) settle(i, n int, own *record, before globals) {
	entry := *own
	entry.flag = Valid
	if s.devices[i].Kind == ReceiveOnly {
		global, is := before(n)
		switch {
		case is && global.flag == LocalChange:
			s.put(i, i, n, record{})
			return
		case !is || !global.deleted:
			return
		}
	}
	s.update(i, n, entry, before)
}
