package budget

// queue has names of which some wait longer than others. A name's turn comes the earlier, the longer ago it was asked for on the device that waits
// longest; never is longest. The last one that is taken may go over the bytes that there are: otherwise a large file would wait for ever.
type queue struct {
	costs map[int64]int64 // by when they were asked for last: the bytes of all their files
	turn  int64           // names that were asked for before this are taken; of those of this very time as many as there are bytes for
	left  int64
	isAll bool
}

// add adds a name.
func (q *queue) add(name *name) { q.costs[name.at] += name.bytes }

// limit says how many bytes are taken, and gives how many of them are.
func (q *queue) limit(bytes int64) int64 {
	spent := int64(0)
	for len(q.costs) > 0 {
		next := q.first()
		if spent+q.costs[next] > bytes {
			q.turn, q.left = next, bytes-spent
			return bytes
		}
		spent += q.costs[next]
		delete(q.costs, next)
	}
	q.isAll = true
	return spent
}

// first gives the longest ago of the times that are left.
func (q *queue) first() int64 {
	least, is := int64(0), false
	for at := range q.costs {
		if !is || at < least {
			least, is = at, true
		}
	}
	return least
}

// takes says whether a name is taken. Names are asked about in their order, each once.
func (q *queue) takes(name *name) bool {
	if q.isAll || name.at < q.turn {
		return true
	}
	if name.at > q.turn || q.left <= 0 {
		return false
	}
	q.left -= name.bytes
	return true
}
