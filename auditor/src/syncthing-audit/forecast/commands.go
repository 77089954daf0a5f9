package forecast

// revert is Syncthing's 'Revert Local Changes' on a device that only receives.
func (s *state) revert(i int) {
	p := s.newPull(i)
	for n := range p.names {
		own := p.recorded(n)
		global := p.wanted(n)
		if own.flag != LocalChange || !global.isThere() {
			continue
		}
		entry := *own
		entry.flag = Valid
		switch {
		case global.flag == LocalChange && !own.deleted && own.kind == Directory:
			p.dirs = append(p.dirs, n)
			continue
		case global.flag == LocalChange && !own.deleted:
			if !p.at(i, n).isThere() {
				continue
			}
			p.takeAway(n)
			entry = s.deletedBy(entry, i, n)
			entry.version = 0
		case global.flag != LocalChange && s.isEquivalent(global, &entry, comparison{localChange: true, window: s.devices[i].TimeWindow}):
			entry = *global
		default:
			entry.version = 0
		}
		p.done(n, entry)
	}
	for place := len(p.dirs) - 1; place >= 0; place-- {
		if n := p.dirs[place]; p.removeDirectory(n) == NoReason {
			p.done(n, record{kind: Directory, deleted: true, time: s.now(n)})
		}
	}
	p.finish()
}

// override is Syncthing's 'Override Changes' on a device that only sends.
func (s *state) override(i int) {
	for n := range s.names {
		entry, own := *s.need(i, n), *s.own(i, n)
		switch {
		case !entry.isThere() || own.isThere() && own.isInvalid():
			continue
		case !own.isThere():
			s.put(i, i, n, s.deletedBy(entry, i, n))
		default:
			version := merged(s.vectors[own.version], s.vectors[entry.version])
			own.version = s.vectorNumber(raised(version, s.devices[i].Number))
			s.put(i, i, n, own)
		}
	}
}
