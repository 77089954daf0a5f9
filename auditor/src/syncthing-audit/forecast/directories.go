package forecast

// makeParents makes the directories above a name that aren't there: Syncthing's checkParent.
func (p *pull) makeParents(n int) Why {
	switch p.place(p.i, n) {
	case belowSomethingElse:
		return BelowNoDirectory
	case belowDirectories:
		return NoReason
	}
	for above := p.names[n].parent; above >= 0; above = p.names[above].parent {
		if !p.disk(p.i, above).isThere() {
			p.write(p.i, above, newDirectory(usualDirectory))
		}
	}
	p.scans[p.names[n].parent] = true
	return NoReason
}

// newDirectory gives a directory that is made now.
func newDirectory(mode int32) node {
	return node{kind: Directory, mode: mode, time: presentTime}
}

// makeDirectory is Syncthing's handleDir.
func (p *pull) makeDirectory(n int) Why {
	if why := p.makeParents(n); why != NoReason {
		return why
	}
	entry, what := p.wanted(n), *p.at(p.i, n)
	if what.kind == Directory {
		what.mode = p.modeOf(entry, what.mode)
		p.write(p.i, n, what)
		return p.done(n, *entry)
	}
	if why := p.clear(n); why != NoReason {
		return why
	}
	p.write(p.i, n, newDirectory(p.modeOf(entry, usualDirectory)))
	return p.done(n, *entry)
}

// makeSymlink is Syncthing's handleSymlink.
func (p *pull) makeSymlink(n int) Why {
	if why := p.makeParents(n); why != NoReason {
		return why
	}
	if why := p.clear(n); why != NoReason {
		return why
	}
	entry := p.wanted(n)
	p.write(p.i, n, node{kind: Symlink, target: entry.target, mode: NoMode})
	return p.done(n, *entry)
}

// clear takes away what stands where something else is to stand: as a conflict copy, or for good.
func (p *pull) clear(n int) Why {
	what, own := p.at(p.i, n), p.recorded(n)
	if !what.isThere() {
		return NoReason
	}
	if !p.isAsRecorded(p.i, own, what) {
		p.scans[n] = true
		return NotScanned
	}
	switch {
	case own.kind == File && p.isInConflict(p.i, own.version, p.wanted(n).version):
		p.moveAway(n)
	case own.kind == Directory:
		return p.removeDirectory(n)
	default:
		p.takeAway(n)
	}
	return NoReason
}

// removeDirectory is Syncthing's deleteDirOnDisk: what is below stops it.
func (p *pull) removeDirectory(n int) Why {
	if p.place(p.i, n) == belowSomethingElse {
		return BelowNoDirectory
	}
	p.drop(n)
	why := NoReason
	if p.names[n].holds.Has(p.i) {
		why = HasIgnored
	}
	for below := range p.names {
		if !p.isBelow(below, n) || !p.at(p.i, below).isThere() {
			continue
		}
		found := p.stops(below)
		if found == HasUnscanned {
			p.scans[below] = true
		}
		if why == NoReason || found < why {
			why = found
		}
	}
	switch why {
	case NoReason:
		p.remove(p.i, n)
	case HasLocalChanges:
		p.scans[n] = true
	}
	return why
}

// stops says why something below a directory stops its removal. Of several reasons Syncthing takes the first of these three.
func (p *pull) stops(below int) Why {
	own := p.recorded(below)
	switch {
	case !own.isThere() || own.deleted:
		return HasUnscanned
	case p.device().Kind == ReceiveOnly && own.flag == LocalChange:
		return HasLocalChanges
	case !p.isAsRecorded(p.i, own, p.at(p.i, below)):
		return HasUnscanned
	}
	return NotEmpty
}

// deleteDirectory is Syncthing's deleteDir.
func (p *pull) deleteDirectory(n int) Why {
	is, why := p.isToBeDeleted(n)
	if is {
		why = p.removeDirectory(n)
	}
	if why != NoReason {
		return why
	}
	return p.done(n, *p.wanted(n))
}
