package forecast

// mostStarts is how many first states a world may have for all of them to be tried.
const mostStarts = 24

// withLists gives the states that a world may be in, by the order in which devices told their records: nothing says which it was. It matters
// only where three versions beat one another in a circle. The answer says whether these are all.
func (s *state) withLists() (states []*state, all bool) {
	states, all = []*state{s.copied()}, true
	for i := range s.devices {
		var next []*state
		for _, order := range s.ordersAt(i) {
			for _, state := range states {
				next = append(next, state.filled(i, order))
			}
		}
		if states = distinct(next); len(states) > mostStarts {
			states, all = states[:mostStarts], false
		}
	}
	return states, all
}

// ordersAt gives the orders of the devices that may make another list at a device: one, unless three versions are known of a name.
func (s *state) ordersAt(i int) [][]int {
	own := make([]int, 0, len(s.devices))
	for j := range s.devices {
		own = append(own, (i+j)%len(s.devices))
	}
	filled := s.filled(i, own)
	for n := range s.names {
		if len(s.lists[filled.get(s.listCell(i, n))]) > 2 {
			return permutations(own)
		}
	}
	return [][]int{own}
}

// filled gives the state with the lists of a device as they come by taking the devices in this order.
func (s *state) filled(i int, order []int) *state {
	state := s.copied()
	for n := range s.names {
		l := make(list, 0, len(order))
		for _, j := range order {
			if entry := s.recordAt(i, j, n); entry.isThere() {
				l = s.add(l, i, j, n, entry)
			}
		}
		state.set(s.listCell(i, n), s.listNumber(l))
	}
	return state
}

func distinct(states []*state) []*state {
	seen := map[string]bool{}
	kept := states[:0]
	for _, state := range states {
		if key := state.key(); !seen[key] {
			seen[key] = true
			kept = append(kept, state)
		}
	}
	return kept
}

// permutations gives all orders of up to four of these; the last ones of more stay where they are.
func permutations(places []int) [][]int {
	const most = 4
	if len(places) > most {
		var orders [][]int
		for _, head := range permutations(places[:most]) {
			orders = append(orders, append(head, places[most:]...))
		}
		return orders
	}
	if len(places) < 2 {
		return [][]int{append([]int{}, places...)}
	}
	var orders [][]int
	for at := range places {
		rest := append(append([]int{}, places[:at]...), places[at+1:]...)
		for _, tail := range permutations(rest) {
			orders = append(orders, append([]int{places[at]}, tail...))
		}
	}
	return orders
}
