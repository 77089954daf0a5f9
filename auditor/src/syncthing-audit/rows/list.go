package rows

import "bytes"

// list is a list of records or nodes, as JSON.
type list struct {
	written bytes.Buffer
	count   int
	sequences
}

// add adds an item.
func (l *list) add(item []byte) {
	if l.count > 0 {
		l.written.WriteByte(',')
	}
	l.written.Write(item)
	l.count++
}

// reset takes everything away.
func (l *list) reset() {
	l.written.Reset()
	l.count = 0
	l.sequences.reset()
}
