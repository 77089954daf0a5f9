package forecast

// Where a name stands: below directories, below one that isn't there, or below something else.
const (
	belowDirectories = iota
	belowNothing
	belowSomethingElse
)

func (s *state) disk(i, n int) *node { return &s.nodes[s.get(s.diskCell(i, n))] }

// place says where a name stands on a device's disk.
func (s *state) place(i, n int) int {
	result := belowDirectories
	for above := s.names[n].parent; above >= 0; above = s.names[above].parent {
		what := s.disk(i, above)
		if !what.isThere() {
			result = belowNothing
		} else if what.kind != Directory {
			result = belowSomethingElse
		}
	}
	return result
}

// at gives what a device finds at a name: below what is no directory there is nothing.
func (s *state) at(i, n int) *node {
	if s.place(i, n) != belowDirectories {
		return &s.nodes[0]
	}
	return s.disk(i, n)
}

// write sets what stands at a name.
func (s *state) write(i, n int, what node) { s.writeNumber(i, n, s.nodeNumber(what)) }

func (s *state) remove(i, n int) { s.writeNumber(i, n, 0) }

// writeNumber sets what stands at a name. If something comes or goes, the directory above has the present time.
func (s *state) writeNumber(i, n int, number int32) {
	cell := s.diskCell(i, n)
	if above := s.names[n].parent; above >= 0 && (s.get(cell) == 0) != (number == 0) {
		if what := *s.disk(i, above); what.kind == Directory {
			what.time = presentTime
			s.set(s.diskCell(i, above), s.nodeNumber(what))
		}
	}
	s.set(cell, number)
}

// temp gives the bytes that a device has in the temporary file of a name.
func (s *state) temp(i, n int) int32 { return s.get(s.tempCell(i, n)) }

func (s *state) setTemp(i, n int, content int32) { s.set(s.tempCell(i, n), content) }
