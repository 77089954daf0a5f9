package forecast

import "encoding/binary"

// start gives the first state of a world: nothing was scanned yet, and version lists are as they come by taking the devices in order.
func (l *loader) start(names []Name) *state {
	s := &state{machine: l.machine, cells: make([]int32, len(names)*l.nameCells), may: 1<<len(l.devices) - 1}
	for n := range names {
		for i := range l.devices {
			if own := names[n].Own[i]; own != nil {
				s.set(s.ownCell(i, n), l.recordOf(own))
			}
			for j, view := range names[n].Views[i] {
				if view != nil && j != i && !l.devices[i].Apart.Has(j) {
					s.set(s.viewCell(i, j, n), l.recordOf(view))
				}
			}
			if what := names[n].Disk[i]; what != nil && s.place(i, n) == belowDirectories { // nothing stands below what is no directory
				s.set(s.diskCell(i, n), l.nodeOf(what))
			}
		}
	}
	s.keepFirst()
	return s
}

func (l *loader) recordOf(r *Record) int32 {
	entry := record{kind: r.Type, deleted: r.Deleted, flag: r.Flag, version: l.versionOf(r.Version), time: l.time(r.Time),
		target: l.targetOf(r.Target), mode: int32(r.Mode)}
	if !r.Deleted && r.Type == File {
		entry.content = l.contentOf(r.Content)
	}
	if r.Type == Symlink {
		entry.mode = NoMode
		if !r.Deleted {
			entry.time = 0
		}
	}
	return l.recordNumber(entry)
}

func (l *loader) nodeOf(n *Node) int32 {
	standing := node{kind: n.Type, mode: int32(n.Mode)}
	switch n.Type {
	case File:
		standing.time, standing.content = l.time(n.Time), l.contentOf(n.Content)
	case Directory:
		standing.time = l.time(n.Time)
	case Symlink:
		standing.target, standing.mode = l.targetOf(n.Target), NoMode
	}
	return l.nodeNumber(standing)
}

// shape gives a text that two worlds share if they are alike: all that the model looks at is the same then.
func (l *loader) shape(s *state) string {
	var text []byte
	put := func(numbers ...int64) {
		for _, number := range numbers {
			text = binary.AppendVarint(text, number)
		}
	}
	put(int64(len(l.devices)), int64(len(l.names)), int64(len(l.sizes)), int64(len(l.vectors)), int64(len(l.records)), int64(len(l.nodes)))
	for _, device := range l.devices {
		put(int64(device.Kind), int64(device.Release), int64(device.Number), truth(device.IgnorePermissions), truth(device.IgnoreDelete))
		put(int64(device.MaxConflicts), device.TimeWindow, int64(device.Apart), truth(device.Versions == VersionsKept))
	}
	for _, name := range l.names {
		put(int64(name.parent), truth(name.isCopy), int64(name.root), int64(name.holds), int64(name.bars), int64(name.drops))
	}
	put(l.sizes...)
	for _, vector := range l.vectors {
		put(int64(len(vector)))
		for _, counter := range vector {
			put(int64(counter.Device), int64(counter.Value))
		}
	}
	for _, entry := range l.records {
		put(int64(entry.kind), truth(entry.deleted), int64(entry.flag), int64(entry.version), entry.time)
		put(int64(entry.content), int64(entry.target), int64(entry.mode))
	}
	for _, what := range l.nodes {
		put(int64(what.kind), what.time, int64(what.content), int64(what.target), int64(what.mode))
	}
	for _, cell := range s.cells {
		put(int64(cell))
	}
	return string(text)
}

func truth(is bool) int64 {
	if is {
		return 1
	}
	return 0
}
