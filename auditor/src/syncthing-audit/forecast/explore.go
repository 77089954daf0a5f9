package forecast

// An action is one step of a world. It may change nothing.
type action func(*state)

// actions gives the steps that a state may take.
func (s *state) actions() []action { return append(s.starts(), s.exchanges()...) }

// starts are the starts of devices, with the scan that comes first.
func (s *state) starts() []action {
	var actions []action
	for i := range s.devices {
		if i := i; !s.isOn(i) && s.may&(1<<i) != 0 {
			actions = append(actions, func(s *state) { s.start(i) })
		}
	}
	return actions
}

// exchanges are the steps of devices that run: one tells another what is new, or pulls.
func (s *state) exchanges() []action {
	var actions []action
	for i := range s.devices {
		if !s.isOn(i) {
			continue
		}
		i := i
		for j := range s.devices {
			if j := j; j != i && s.isOn(j) && !s.devices[i].Apart.Has(j) && s.isBehind(i, j) {
				actions = append(actions, func(s *state) { s.send(i, j) })
			}
		}
		if s.needsSomething(i) {
			actions = append(actions, func(s *state) { s.pullOn(i) })
		}
	}
	return actions
}

func (s *state) start(i int) {
	s.scan(i, everything)
	s.on |= 1 << i
}

func (s *state) needsSomething(i int) bool {
	for n := range s.names {
		if s.need(i, n).isThere() {
			return true
		}
	}
	return false
}

func (s *state) areAllOn() bool { return s.on == s.may }

// mostOutcomes is how many ways of one step are tried at most.
const mostOutcomes = 1000

// outcomes gives the states behind a step, one for each way that what is drawn in it may go, and says whether these are all.
func (s *state) outcomes(act action) (states []*state, all bool) {
	scripts := [][]int{nil}
	for len(scripts) > 0 {
		if len(states) == mostOutcomes {
			return states, false
		}
		script := scripts[len(scripts)-1]
		scripts = scripts[:len(scripts)-1]
		next := s.copied()
		var drawn, counts []int
		next.draw = func(count int) int {
			taken := 0
			if len(drawn) < len(script) {
				taken = script[len(drawn)]
			}
			drawn, counts = append(drawn, taken), append(counts, count)
			return taken
		}
		act(next)
		next.draw = nil
		for at := len(script); at < len(drawn); at++ {
			for other := 1; other < counts[at]; other++ {
				scripts = append(scripts, append(append([]int{}, drawn[:at]...), other))
			}
		}
		states = append(states, next)
	}
	return states, true
}

// A search tries all orders.
type search struct {
	seen map[string]bool
	todo []*state
	most int
	left bool // whether a step may go more ways than were tried
}

func (x *search) add(s *state) {
	if key := s.key(); !x.seen[key] {
		x.seen[key] = true
		x.todo = append(x.todo, s)
	}
}

// explore gives all states in which nothing changes any more, or says that there are more states than it may try.
func explore(starts []*state, most int) (ends []*state, states int, all bool) {
	x := search{seen: map[string]bool{}, most: most}
	for _, state := range starts {
		x.add(state)
	}
	for len(x.todo) > 0 {
		if len(x.seen) > most || x.left {
			return nil, len(x.seen), false
		}
		s := x.todo[len(x.todo)-1]
		x.todo = x.todo[:len(x.todo)-1]
		if !x.step(s, s.actions()) && s.areAllOn() && !x.step(s, s.rescans()) {
			ends = append(ends, s)
		}
	}
	if x.left {
		return nil, len(x.seen), false
	}
	return ends, len(x.seen), true
}

// step adds what these steps lead to, and says whether one of them changes anything.
func (x *search) step(s *state, actions []action) bool {
	moved := false
	for _, act := range actions {
		outcomes, all := s.outcomes(act)
		x.left = x.left || !all
		for _, next := range outcomes {
			if next.rankPresent(); !next.isSame(s) {
				moved = true
				x.add(next)
			}
		}
	}
	return moved
}

// rescans are the scans of devices that scanned before: they matter where nothing else goes on.
func (s *state) rescans() []action {
	var actions []action
	for i := range s.devices {
		if i := i; s.isOn(i) {
			actions = append(actions, func(s *state) { s.scan(i, everything) })
		}
	}
	return actions
}
