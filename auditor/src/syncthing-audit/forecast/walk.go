package forecast

import "math/rand"

// mostSteps is how many steps a walk takes before it is given up: the world comes to no end then.
const mostSteps = 600

// walk takes steps in random order until nothing changes any more. It gives nothing where that doesn't come.
func walk(from *state, random *rand.Rand) *state {
	s := from.copied()
	s.draw = random.Intn
	staged := random.Intn(2) == 0
	order := random.Perm(len(s.devices))
	for range [mostSteps]struct{}{} {
		if s.areAllOn() || staged && s.on != 0 {
			if s.moves(random, s.exchanges()) {
				continue
			}
			if s.areAllOn() {
				if !s.moves(random, s.rescans()) {
					return s
				}
				continue
			}
		} else if s.on != 0 && random.Intn(2) == 0 && s.moves(random, s.exchanges()) {
			continue
		}
		s.startNext(order)
	}
	return nil
}

func (s *state) startNext(order []int) {
	for _, i := range order {
		if !s.isOn(i) && s.may&(1<<i) != 0 {
			s.start(i)
			return
		}
	}
}

// moves takes one of these steps that changes something, and says whether there was one.
func (s *state) moves(random *rand.Rand, actions []action) bool {
	random.Shuffle(len(actions), func(a, b int) { actions[a], actions[b] = actions[b], actions[a] })
	before := s.copied()
	for _, act := range actions {
		act(s)
		if !s.isSame(before) {
			return true
		}
	}
	return false
}
