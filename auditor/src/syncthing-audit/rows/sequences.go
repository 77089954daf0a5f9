package rows

// sequences are sequence numbers, which are above 0. They lie in a table: each where its hash says, or in the next free place behind.
type sequences struct {
	table []int64
	count int
}

// take takes a number, and says whether it was free.
func (s *sequences) take(number int64) bool {
	if 2*s.count >= len(s.table) {
		s.grow()
	}
	for at := s.placeOf(number); ; at = (at + 1) & (len(s.table) - 1) {
		switch s.table[at] {
		case number:
			return false
		case 0:
			s.table[at] = number
			s.count++
			return true
		}
	}
}

func (s *sequences) placeOf(number int64) int {
	return int(uint64(number)*0x9e3779b97f4a7c15>>32) & (len(s.table) - 1)
}

// grow makes the table twice as long: its length is a power of two.
func (s *sequences) grow() {
	old := s.table
	length := 2 * len(old)
	if length == 0 {
		length = 64
	}
	s.table, s.count = make([]int64, length), 0
	for _, number := range old {
		if number != 0 {
			s.take(number)
		}
	}
}

// reset takes all numbers away.
func (s *sequences) reset() {
	for at := range s.table {
		s.table[at] = 0
	}
	s.count = 0
}
