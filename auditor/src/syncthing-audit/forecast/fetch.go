package forecast

import "syncthing-audit/lists"

// takeFiles takes the files that are to be renamed or fetched, in the order of the queue. That may be any, so where the order matters it is
// drawn.
func (p *pull) takeFiles(queue []int) {
	depends := p.dependOnOrder(queue)
	var last []int
	for _, n := range queue {
		if depends[n] {
			last = append(last, n)
		} else {
			p.note(n, p.takeFile(n))
		}
	}
	for _, group := range p.groupsOfOrder(last) {
		p.takeInAnyOrder(group)
	}
}

// takeInAnyOrder takes files of which one may take what another would.
func (p *pull) takeInAnyOrder(last []int) {
	for len(last) > 0 {
		place := 0
		if len(last) > 1 {
			p.noteDrawn(last...)
			place = p.draw(len(last))
		}
		n := last[place]
		last = append(last[:place:place], last[place+1:]...)
		p.note(n, p.takeFile(n))
	}
}

// noteTied notes that some of these names may get their bytes from others of them. One name by itself gets none.
func (m *machine) noteTied(names ...int) {
	if len(names) < 2 {
		return
	}
	for _, n := range names {
		m.tied[n] = true
	}
}

// noteDrawn notes that something is drawn for names.
func (p *pull) noteDrawn(names ...int) {
	for _, n := range names {
		p.drawn[n] = true
	}
}

// groupsOfOrder gives files of which the order matters group by group: those that would be renamed from the same files, and those below one another, or below which
// the others would be renamed from. Which of two groups comes first doesn't matter.
func (p *pull) groupsOfOrder(last []int) [][]int {
	joined, places, first := newGroups(len(last)), map[int]int{}, map[int32]int{}
	for place, n := range last {
		places[n] = place
	}
	joinAbove := func(place, n int) {
		for above := p.names[n].parent; above >= 0; above = p.names[above].parent {
			if other, is := places[above]; is {
				joined.join(place, other)
			}
		}
	}
	for place, n := range last {
		joinAbove(place, n)
		content := p.wanted(n).content
		if other, is := first[content]; is {
			joined.join(place, other)
			continue
		}
		first[content] = place
		for _, from := range p.buckets[content] {
			joinAbove(place, from)
		}
	}
	var groups lists.Grouped[int, []int]
	for place, n := range last {
		group := groups.Of(joined.root(place))
		*group = append(*group, n)
	}
	return lists.Each(groups.All(), func(group *[]int) []int { return *group })
}

// dependOnOrder gives the files of a queue of which one may take what another would be renamed from, or one is below the other.
func (p *pull) dependOnOrder(queue []int) map[int]bool {
	due, takers, names := map[int]bool{}, map[int32]int{}, map[int]bool{}
	for _, n := range queue {
		due[n] = true
		if content := p.wanted(n).content; len(p.buckets[content]) > 0 {
			p.noteTied(append([]int{n}, p.buckets[content]...)...)
			takers[content]++
		}
	}
	for _, n := range queue {
		if takers[p.wanted(n).content] > 1 {
			names[n] = true
		}
		for above := p.names[n].parent; above >= 0; above = p.names[above].parent {
			if due[above] {
				names[n], names[above] = true, true
			}
		}
	}
	return names
}

func (p *pull) takeFile(n int) Why {
	if why := p.makeParents(n); why != NoReason {
		return why
	}
	entry := p.wanted(n)
	for len(p.buckets[entry.content]) > 0 {
		from := p.buckets[entry.content][0]
		p.buckets[entry.content] = p.buckets[entry.content][1:]
		if p.rename(from, n) {
			delete(p.due, from)
			return NoReason
		}
	}
	if p.temp(p.i, n) != entry.content {
		p.setTemp(p.i, n, 0)
		if !p.fetch(n) {
			return NoSource
		}
		p.setTemp(p.i, n, entry.content)
	}
	return p.putInPlace(n, node{kind: File, time: entry.time, content: entry.content, mode: p.modeOf(entry, usualMode)})
}

// The modes of what Syncthing makes where it doesn't set modes.
const (
	usualMode      = 0o644
	usualDirectory = 0o755
)

// putInPlace is Syncthing's performFinish: a temporary file becomes the file.
func (p *pull) putInPlace(n int, what node) Why {
	if why := p.clear(n); why != NoReason {
		return why
	}
	p.setTemp(p.i, n, 0)
	p.write(p.i, n, what)
	return p.done(n, *p.wanted(n))
}

// fetch says whether the device gets the bytes of a file: from its own disk, or from a device that has them.
func (p *pull) fetch(n int) bool {
	entry := p.wanted(n)
	if p.sizes[entry.content] == 0 {
		return true
	}
	_, have := p.old.global(p.i, n)
	var sources []int
	good, bad := false, false
	for j := range p.devices {
		if have&(1<<j) != 0 && j != p.i && p.isOn(j) {
			sources = append(sources, j)
			is := p.givesBytes(j, n, entry.content)
			good, bad = good || is, bad || !is
		}
	}
	if !good || bad {
		p.noteTied(append([]int{n}, p.holdersOf(entry.content)...)...)
	}
	if p.hasBytes(n, entry.content) {
		return true
	}
	for len(sources) > 0 {
		place := 0
		if good && bad && len(sources) > 1 {
			p.noteDrawn(n)
			place = p.draw(len(sources))
		}
		j := sources[place]
		sources = append(sources[:place:place], sources[place+1:]...)
		if p.givesBytes(j, n, entry.content) {
			return true
		}
		p.recheck(j, n, entry.content)
	}
	return false
}

// hasBytes says whether a device finds these bytes on its own disk: in what it has recorded with them, or in what is to be replaced.
func (p *pull) hasBytes(n int, content int32) bool {
	if what := p.at(p.i, n); what.kind == File && what.content == content {
		return true
	}
	for _, other := range p.holdersOf(content) {
		if what := p.at(p.i, other); what.kind == File && what.content == content {
			return true
		}
	}
	return false
}

// holdersOf gives the files that the device recorded with these bytes.
func (p *pull) holdersOf(content int32) []int {
	if p.holders == nil {
		p.holders = p.old.byContent(p.i)
	}
	return p.holders[content]
}

func (p *pull) givesBytes(j, n int, content int32) bool {
	what := p.at(j, n)
	return what.kind == File && what.content == content
}

// recheck notes that a device is to hash a file anew, since it was asked for bytes that it has recorded and hasn't: Syncthing's recheckFile.
func (p *pull) recheck(j, n int, content int32) {
	what, own := p.at(j, n), p.own(j, n)
	if what.kind == File && own.kind == File && !own.deleted && own.flag == Valid && own.content == content {
		p.rescans = append(p.rescans, source{j, n})
	}
}

// rename is Syncthing's renameFile: a file that is to be deleted becomes one that is needed. It says whether it did.
func (p *pull) rename(from, n int) bool {
	if is, why := p.isToBeDeleted(from); !is || why != NoReason {
		return false
	}
	what, own := p.at(p.i, n), p.recorded(n)
	if what.isThere() && !p.isAsRecorded(p.i, own, what) || !what.isThere() && own.isThere() && !own.deleted {
		p.scans[n] = true
		return false
	}
	moved := *p.at(p.i, from)
	p.takeAway(from)
	p.setTemp(p.i, n, moved.content)
	entry := p.wanted(n)
	if p.putInPlace(n, node{kind: File, time: entry.time, content: moved.content, mode: p.modeOf(entry, moved.mode)}) != NoReason {
		return false
	}
	p.done(from, *p.wanted(from))
	return true
}
