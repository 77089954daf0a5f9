package forecast

// isToBeDeleted is Syncthing's checkToBeDeleted: whether something stands there that is to be deleted, or why it may not be.
func (p *pull) isToBeDeleted(n int) (bool, Why) {
	if p.place(p.i, n) == belowSomethingElse {
		return false, NoReason
	}
	what, own := p.at(p.i, n), p.recorded(n)
	switch {
	case !what.isThere() && (!own.isThere() || own.deleted):
		return false, NoReason
	case !what.isThere() || !p.isAsRecorded(p.i, own, what):
		p.scans[n] = true
		return false, NotScanned
	}
	return true, NoReason
}

// deleteFile is Syncthing's deleteFileWithCurrent: a deletion that is in conflict with what is there loses.
func (p *pull) deleteFile(n int) Why {
	is, why := p.isToBeDeleted(n)
	if why != NoReason {
		return why
	}
	entry, own := p.wanted(n), *p.recorded(n)
	if !is {
		return p.done(n, *entry)
	}
	if own.kind == Directory {
		return IsDirectory
	}
	if p.isInConflict(p.i, own.version, entry.version) {
		own.version = p.vectorNumber(merged(p.vectors[own.version], p.vectors[entry.version]))
		return p.done(n, own)
	}
	p.takeAway(n)
	return p.done(n, *entry)
}

// deleteRest deletes the files that nothing was renamed from, and then directories, the lowest first.
func (p *pull) deleteRest() {
	for n := range p.names {
		if p.due[n] {
			p.note(n, p.deleteFile(n))
		}
	}
	for place := len(p.dirs) - 1; place >= 0; place-- {
		p.note(p.dirs[place], p.deleteDirectory(p.dirs[place]))
	}
}
