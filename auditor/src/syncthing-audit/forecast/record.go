package forecast

func (r *record) isInvalid() bool { return r.flag != Valid }

// winsConflict is Syncthing's WinsConflict.
func (m *machine) winsConflict(a, b *record) bool {
	switch {
	case a.isInvalid() != b.isInvalid():
		return !a.isInvalid()
	case a.deleted != b.deleted:
		return b.deleted
	case a.time != b.time:
		return a.time > b.time
	}
	return m.order(a.version, b.version) == concurrentGreater
}

// comparison says what isEquivalent doesn't look at.
type comparison struct {
	permissions bool
	bytes       bool
	localChange bool // that a record is a local change of a device that only receives
	allFlags    bool
	window      int64
}

// isEquivalent is Syncthing's IsEquivalentOptional.
func (m *machine) isEquivalent(a, b *record, ignored comparison) bool {
	if a.flag == MustBeHashed || b.flag == MustBeHashed {
		return false
	}
	if a.kind != b.kind || a.deleted != b.deleted || !ignored.allFlags && a.isInvalidBut(ignored) != b.isInvalidBut(ignored) {
		return false
	}
	if !ignored.permissions && a.mode != NoMode && b.mode != NoMode && a.mode != b.mode {
		return false
	}
	switch a.kind {
	case File:
		return m.sizes[a.content] == m.sizes[b.content] && isSameTime(a.time, b.time, ignored.window) && (ignored.bytes || a.content == b.content)
	case Symlink:
		return a.target == b.target
	}
	return true
}

func (r *record) isInvalidBut(ignored comparison) bool {
	return r.isInvalid() && !(ignored.localChange && r.flag == LocalChange)
}

func isSameTime(a, b, window int64) bool {
	if a > b {
		a, b = b, a
	}
	return a == b || b-a < window
}

// deletedBy gives the record of the same name deleted by a device now.
func (s *state) deletedBy(entry record, i, n int) record {
	entry.deleted = true
	entry.version = s.vectorNumber(raised(s.vectors[entry.version], s.devices[i].Number))
	entry.time = s.now(n)
	entry.content = 0
	return entry
}

// ofNode gives what a scan reads of a node.
func (m *machine) ofNode(what *node) record {
	return record{kind: what.kind, time: what.time, content: what.content, target: what.target, mode: what.mode}
}

// isAsRecorded says whether a node is what a device has recorded of it, as a pull asks before it touches the node.
func (m *machine) isAsRecorded(i int, entry *record, what *node) bool {
	if !entry.isThere() || entry.deleted {
		return false
	}
	found := m.ofNode(what)
	return m.isEquivalent(entry, &found, comparison{permissions: m.devices[i].IgnorePermissions, bytes: true, allFlags: true, window: m.devices[i].TimeWindow})
}

// isInConflict is Syncthing's inConflict.
func (m *machine) isInConflict(i int, current, replacement int32) bool {
	if order := m.order(current, replacement); order == concurrentLesser || order == concurrentGreater {
		return true
	}
	number := m.devices[i].Number
	return counterOf(m.vectors[replacement], number) > counterOf(m.vectors[current], number)
}
