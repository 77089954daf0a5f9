package forecast

// moveAway is Syncthing's moveForConflict: what stands there becomes a conflict copy, if it may have one.
func (p *pull) moveAway(n int) {
	what := p.get(p.diskCell(p.i, n))
	p.remove(p.i, n)
	if p.names[n].isCopy || p.device().MaxConflicts == 0 {
		return
	}
	place := p.copyOf(n, what, p.i)
	p.writeNumber(p.i, place, what)
	p.scans[place] = true
	p.dropOldest(n, place)
}

// dropOldest deletes the oldest copies of a name above those that the device keeps.
func (p *pull) dropOldest(n, place int) {
	most := p.device().MaxConflicts
	if most < 0 {
		return
	}
	var copies []int
	for other := range p.names {
		if p.names[other].isCopy && p.names[other].root == n && other != place && p.disk(p.i, other).isThere() {
			copies = append(copies, other)
		}
	}
	for len(copies)+1 > most {
		p.remove(p.i, copies[0])
		copies = copies[1:]
	}
}
