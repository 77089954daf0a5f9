package forecast

// told gives a device's own record as it goes to the others: a local change of one that only receives has no version there.
func (s *state) told(i, n int) record {
	entry := *s.own(i, n)
	if entry.isInvalid() {
		if entry.flag == LocalChange {
			entry.version = 0
		}
		entry.flag = Invalid
	}
	return entry
}

// isBehind says whether device j lacks something that device i has to tell.
func (s *state) isBehind(i, j int) bool {
	for n := range s.names {
		if s.lacks(i, j, n) {
			return true
		}
	}
	return false
}

func (s *state) lacks(i, j, n int) bool {
	if !s.own(i, n).isThere() {
		return false
	}
	entry, view := s.told(i, n), &s.records[s.get(s.viewCell(j, i, n))]
	return !view.isThere() || view.version != entry.version || view.flag != entry.flag
}

// send has device i tell device j all that it has to tell.
func (s *state) send(i, j int) {
	for n := range s.names {
		if s.lacks(i, j, n) {
			s.put(j, i, n, s.told(i, n))
		}
	}
}
