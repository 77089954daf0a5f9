package forecast

// noted is something about a name at a device, by numbers.
type noted struct {
	device, n int
	why       Why
}

// apart gives why devices keep a name otherwise than others have it, though they need nothing of it.
func (s *state) apart(count int) []noted {
	var found []noted
	for i := range s.devices {
		for n := range s.names[:count] {
			if why := s.whyApart(i, n); why != NoReason {
				found = append(found, noted{i, n, why})
			}
		}
	}
	return found
}

func (s *state) whyApart(i, n int) Why {
	own, what, due := s.own(i, n), s.at(i, n), s.need(i, n)
	switch {
	case own.flag == LocalChange:
		return KeepsLocalChange
	case what.kind == File && what.content != own.content:
		return NotSeen
	case due.isThere() && due.deleted && s.devices[i].IgnoreDelete:
		return IgnoresDeletions
	}
	return NoReason
}

// IsBelow says whether another record's version counts all that this one's does, and more.
func (r *Record) IsBelow(other *Record) bool {
	return compareVectors(r.Version, other.Version) == lesser
}

// IsAtMost says whether another record's version counts all that this one's does.
func (r *Record) IsAtMost(other *Record) bool {
	order := compareVectors(r.Version, other.Version)
	return order == lesser || order == equal
}
