package forecast

// A state is one state of a world: for each name the own records, what devices know of each other, version lists, disks and temporary
// files, by their numbers in the machine. Names behind the last cell have nothing.
type state struct {
	*machine
	cells []int32
	on    uint32 // devices that run, and have scanned
	may   uint32 // devices that are to run
	draw  func(count int) int
}

func (s *state) copied() *state {
	state := *s
	state.cells = append(make([]int32, 0, len(s.cells)), s.cells...)
	return &state
}

// isSame says whether two states of one machine are equal.
func (s *state) isSame(other *state) bool {
	a, b := s.trimmed(), other.trimmed()
	if s.on != other.on || len(a) != len(b) {
		return false
	}
	for place, cell := range a {
		if cell != b[place] {
			return false
		}
	}
	return true
}

// trimmed gives the cells up to the last one that has something.
func (s *state) trimmed() []int32 {
	last := len(s.cells)
	for last > 0 && s.cells[last-1] == 0 {
		last--
	}
	return s.cells[:last]
}

// key gives a text that two states of one machine share if they are equal.
func (s *state) key() string {
	text := make([]byte, 4, 4+4*len(s.cells))
	text[0], text[1], text[2], text[3] = byte(s.on), byte(s.on>>8), byte(s.on>>16), byte(s.on>>24)
	for _, cell := range s.trimmed() {
		text = append(text, byte(cell), byte(cell>>8), byte(cell>>16))
	}
	return string(text)
}

func (s *state) get(cell int) int32 {
	if cell >= len(s.cells) {
		return 0
	}
	return s.cells[cell]
}

func (s *state) set(cell int, number int32) {
	if cell >= len(s.cells) {
		if number == 0 {
			return
		}
		names := cell/s.nameCells + 1
		s.cells = append(s.cells, make([]int32, names*s.nameCells-len(s.cells))...)
	}
	s.cells[cell] = number
}

// The cells of a name: for each device its own record, its node, its version list, its temporary file; then the views, and what no disk shows.
func (s *state) ownCell(i, n int) int     { return n*s.nameCells + i }
func (s *state) diskCell(i, n int) int    { return n*s.nameCells + len(s.devices) + i }
func (s *state) listCell(i, n int) int    { return n*s.nameCells + 2*len(s.devices) + i }
func (s *state) tempCell(i, n int) int    { return n*s.nameCells + 3*len(s.devices) + i }
func (s *state) viewCell(i, j, n int) int { return n*s.nameCells + (4+i)*len(s.devices) + j }

func (s *state) pastCell(i, n int) int { return n*s.nameCells + (4+len(s.devices))*len(s.devices) + i }

func (s *state) own(i, n int) *record { return &s.records[s.get(s.ownCell(i, n))] }
func (s *state) isOn(i int) bool      { return s.on&(1<<i) != 0 }

// isThere says whether a record or a node is one, and not nothing.
func (r *record) isThere() bool { return r.kind != 0 }
func (n *node) isThere() bool   { return n.kind != 0 }

// recordAt gives what a device has of another one's record, or its own.
func (s *state) recordAt(i, j, n int) *record {
	if i == j {
		return s.own(i, n)
	}
	return &s.records[s.get(s.viewCell(i, j, n))]
}
