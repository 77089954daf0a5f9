package forecast

import (
	"sort"

	"syncthing-audit/lists"
)

// spreading is an end of some names that becomes one of all names that are like them, too.
type spreading struct {
	disks        []map[string][]Place
	stuck, apart map[string][]Stuck
	past         [2]map[string][]At
}

func newSpreading(end *End) *spreading {
	s := &spreading{stuck: byName(end.Stuck), apart: byName(end.Apart)}
	for place, all := range [][]At{end.Dropped, end.Versions} {
		s.past[place] = map[string][]At{}
		for _, at := range all {
			s.past[place][at.Name] = append(s.past[place][at.Name], at)
		}
	}
	for _, disk := range end.Disks {
		standing := map[string][]Place{}
		for _, place := range disk {
			standing[place.Name] = append(standing[place.Name], place)
		}
		s.disks = append(s.disks, standing)
	}
	return s
}

func byName(all []Stuck) map[string][]Stuck {
	of := map[string][]Stuck{}
	for _, stuck := range all {
		of[stuck.Name] = append(of[stuck.Name], stuck)
	}
	return of
}

// add adds names that go as others do.
func (s *spreading) add(alike *likeness) {
	for at, from := range alike.from.names {
		to := alike.to.names[at]
		for _, disk := range s.disks {
			for _, place := range disk[from] {
				disk[to] = append(disk[to], Place{to, place.IsCopy, alike.from.as(alike.to, place.Node)})
			}
		}
		for _, past := range s.past {
			for _, at := range past[from] {
				past[to] = append(past[to], At{at.Device, to})
			}
		}
		rename := func(stuck Stuck) Stuck { return Stuck{stuck.Device, to, stuck.Why} }
		for _, of := range []map[string][]Stuck{s.stuck, s.apart} {
			if found := of[from]; len(found) > 0 {
				of[to] = lists.Each(found, rename)
			}
		}
	}
}

// end gives the end of all these names.
func (s *spreading) end(names []string) End {
	end := End{Disks: make([][]Place, len(s.disks))}
	for i, disk := range s.disks {
		for _, name := range names {
			end.Disks[i] = append(end.Disks[i], disk[name]...)
		}
	}
	for _, name := range names {
		end.Stuck, end.Apart = append(end.Stuck, s.stuck[name]...), append(end.Apart, s.apart[name]...)
		end.Dropped, end.Versions = append(end.Dropped, s.past[0][name]...), append(end.Versions, s.past[1][name]...)
	}
	for _, all := range [][]At{end.Dropped, end.Versions} {
		sort.SliceStable(all, func(a, b int) bool { return all[a].Device < all[b].Device })
	}
	for _, all := range [][]Stuck{end.Stuck, end.Apart} {
		sort.SliceStable(all, func(a, b int) bool { return all[a].Device < all[b].Device })
	}
	return end
}

// spread gives the answer for all names by that for those that are left in a sieve.
func (s *sieve) spread(answer Answer, names []Name) Answer {
	answer.Names = textsOf(names)
	for place := range answer.Ends {
		spreading := newSpreading(&answer.Ends[place])
		for at := len(s.likenesses) - 1; at >= 0; at-- {
			spreading.add(&s.likenesses[at])
		}
		answer.Ends[place] = spreading.end(answer.Names)
	}
	return answer
}
