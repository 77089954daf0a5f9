// Package rows writes what the members of a folder have of its names: as streams of rows, which are asked, and as check documents.
package rows

import (
	"fmt"

	"syncthing-audit/join"
	"syncthing-audit/shell"
)

// Piece is what is asked of some names at once: a stream of rows, or a check document without its certificate. Each answer speaks of each name by
// itself, and one piece has all that is said of a name. So all pieces together say what one would.
type Piece struct {
	Folder  string
	Own     string      // the device whose own the folder is, as join.Folder has it
	Place   int         // among all pieces, from 0
	Rows    []*join.Row // in the order of names
	Written []byte
	Unknown int   // of a stream: names of it that nothing holds, and that a document doesn't count
	ends    []int // of a stream: where its header and each of its lines end
}

// About says what the piece is about.
func (p *Piece) About() string {
	if len(p.Rows) == 0 {
		return fmt.Sprintf("folder %s, no names", p.Folder)
	}
	return fmt.Sprintf("folder %s, names %s to %s", p.Folder, shell.Path(p.Rows[0].Name), shell.Path(p.Rows[len(p.Rows)-1].Name))
}

// IsStream says whether it is a stream of rows.
func (p *Piece) IsStream() bool { return p.ends != nil }

// Drop gives up what is written, once it is answered. A later stream is written in the room of one.
func (p *Piece) Drop() {
	if p.IsStream() {
		rooms.Put(p.Written)
	}
	p.Written = nil
}

// Some gives the stream of some of its names: the header, and these names' very lines. It doesn't count those that nothing holds.
func (p *Piece) Some(names map[string]bool) *Piece {
	some := &Piece{Folder: p.Folder, Own: p.Own, Written: append([]byte(nil), p.Written[:p.ends[0]]...), ends: p.ends[:1:1]}
	for place, row := range p.Rows {
		if names[row.Name] {
			some.Rows = append(some.Rows, row)
			some.Written = append(some.Written, p.Written[p.ends[place]:p.ends[place+1]]...)
			some.ends = append(some.ends, len(some.Written))
		}
	}
	return some
}
