package forecast

import "sort"

// now gives the time of what is done with a name now: it is above that of all that was done with it before. Of two deletions the later one
// prevails, so it matters which came first.
func (s *state) now(n int) int64 {
	last := int64(presentTime)
	for i := range s.devices {
		for j := range s.devices {
			if entry := s.recordAt(i, j, n); entry.time > last {
				last = entry.time
			}
		}
	}
	return last + 1
}

// rankPresent gives the times of what was done since the world began their ranks, for each name. States that differ in nothing that is
// compared are equal then.
func (s *state) rankPresent() {
	for n := range s.names {
		var times []int64
		for i := range s.devices {
			for j := range s.devices {
				if entry := s.recordAt(i, j, n); entry.time > presentTime {
					times = append(times, entry.time)
				}
			}
		}
		if len(times) > 0 {
			s.giveRanks(n, times)
		}
	}
}

func (s *state) giveRanks(n int, times []int64) {
	sort.Slice(times, func(a, b int) bool { return times[a] < times[b] })
	ranks := map[int64]int64{}
	for _, time := range times {
		if _, is := ranks[time]; !is {
			ranks[time] = presentTime + int64(len(ranks)) + 1
		}
	}
	for i := range s.devices {
		for j := range s.devices {
			cell := s.viewCell(i, j, n)
			if i == j {
				cell = s.ownCell(i, n)
			}
			if entry := s.records[s.get(cell)]; entry.time > presentTime && ranks[entry.time] != entry.time {
				entry.time = ranks[entry.time]
				s.set(cell, s.recordNumber(entry))
			}
		}
	}
}
