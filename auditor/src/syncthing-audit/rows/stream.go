package rows

import (
	"sync"

	"syncthing-audit/join"
	"syncthing-audit/part"
)

// Bounds for streams, of which several are in memory at once.
const (
	mostRows        = 1024
	bytesOfStream   = 2 << 20
	mostBytesOfLine = 1 << 20 // `syncaudit rows` refuses a longer one
)

// rooms are those of streams that are answered: without them the collector has a fifth more to do.
var rooms sync.Pool

// Stream fills streams of rows: a header, and then a line for each name, which has each of its records once.
type Stream struct {
	cut    *cut
	row    row
	header []byte
	next   Piece
}

// NewStream begins to fill streams of a folder.
func NewStream(folder *join.Folder) *Stream {
	stream := &Stream{cut: cutOf(folder)}
	stream.header = stream.cut.write()
	stream.begin()
	return stream
}

// begin begins a stream.
func (s *Stream) begin() {
	s.cut.reset()
	room, _ := rooms.Get().([]byte)
	s.next = Piece{Folder: s.cut.folder.ID, Own: s.cut.folder.Own, Written: append(room[:0], s.header...), ends: []int{len(s.header)}}
}

// Add adds a name. It gives the stream before it, if that was full; or why no stream has the name.
func (s *Stream) Add(name *join.Row) (*Piece, *part.LeftOut) {
	if !s.row.take(s.cut, name) {
		return nil, nil
	}
	line := s.row.line()
	if len(line) > mostBytesOfLine {
		return nil, &part.LeftOut{Kind: part.Large, Why: "what all devices hold of it is more than a line of a stream has room for"}
	}
	if doubled := s.cut.takeSequences(name); doubled != nil {
		return nil, doubled
	}
	var full *Piece
	if len(s.next.Rows) == mostRows || len(s.next.Written)-len(s.header)+len(line) > bytesOfStream {
		full = s.Take()
		s.cut.takeSequences(name)
	}
	s.next.Written = append(s.next.Written, line...)
	s.next.ends = append(s.next.ends, len(s.next.Written))
	s.next.Rows = append(s.next.Rows, name)
	if !s.row.isKnown {
		s.next.Unknown++
	}
	return full, nil
}

// Take gives the stream as it is, and begins another.
func (s *Stream) Take() *Piece {
	made := s.next
	s.begin()
	return &made
}
