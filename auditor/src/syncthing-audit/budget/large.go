package budget

// large finds the name at fault that waits longest of those that take more than half of the bytes. It comes before all others, but never at two looks in a
// row: so the others have half of all bytes. One that takes all bytes has its turn alone.
type large struct {
	most   int64 // how many bytes there are
	folder string
	name   *name // nothing where there is none
	latest int64 // when the last look was
}

// see sees a name.
func (l *large) see(folder string, name *name, isFault bool) {
	if name.at > l.latest {
		l.latest = name.at
	}
	if isFault && name.bytes > l.most/2 && name.bytes < l.most && (l.name == nil || name.at < l.name.at) {
		l.folder, l.name = folder, name
	}
}

// takeFrom takes the name from a queue, and gives its bytes; none where it was asked for at the last look.
func (l *large) takeFrom(queue *queue) int64 {
	if l.name == nil || l.name.at > 0 && l.name.at == l.latest {
		l.name = nil
		return 0
	}
	queue.costs[l.name.at] -= l.name.bytes
	return l.name.bytes
}

// is says whether a name is the one that comes first.
func (l *large) is(folder string, name *name) bool {
	return l.name != nil && l.folder == folder && l.name.name == name.name
}
