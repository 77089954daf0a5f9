package rows

import (
	"syncthing-audit/join"
	"syncthing-audit/limits"
	"syncthing-audit/part"
)

// Bounds for what a document grows by when its certificate is added and every member is written.
const (
	bytesOfDefaults = 128 // the members of a record or node that stand there with their defaults
	bytesOfRow      = 192 // a row of the certificate but its record: folder, device and punctuation
	bytesOfEnds     = 4096
	bytesOfMember   = 512 // a member of a folder without names
	bytesOfView     = 256 // a view without names, and a link
)

// Documents fills check documents with rows, each as far as it has room.
type Documents struct {
	cut  *cut
	row  row
	room int // bytes for names
	rows []*join.Row
	used int
}

// NewDocuments begins to fill documents of a folder of at most so many bytes.
func NewDocuments(folder *join.Folder, withBytes bool, most int) *Documents {
	made := &Documents{cut: cutOf(folder), room: most - bytesOfEnds}
	made.row.withBytes = withBytes
	for _, member := range made.cut.members {
		made.room -= bytesOfMember + bytesOfView*len(member.views)
	}
	return made
}

// Add adds a name. It gives the document before it, if that was full; or why no document has the name.
func (d *Documents) Add(name *join.Row) (*Piece, *part.LeftOut) {
	if !d.row.take(d.cut, name) {
		return nil, nil
	}
	size := d.row.size()
	if size > d.room {
		return nil, &part.LeftOut{Kind: part.Large, Why: "what all devices hold of it is more than a document has room for"}
	}
	if doubled := d.cut.takeSequences(name); doubled != nil {
		return nil, doubled
	}
	var full *Piece
	if d.used+size > d.room || len(d.rows) == limits.MostNames {
		full = d.Take()
		d.cut.takeSequences(name)
	}
	d.cut.add(&d.row)
	d.rows = append(d.rows, name)
	d.used += size
	return full, nil
}

// Take gives the document as it is, and begins another.
func (d *Documents) Take() *Piece {
	made := &Piece{Folder: d.cut.folder.ID, Own: d.cut.folder.Own, Rows: d.rows, Written: d.cut.write()}
	d.cut.reset()
	d.rows, d.used = nil, 0
	return made
}

// add adds what a row says of each member to its lists.
func (c *cut) add(row *row) {
	for _, cell := range row.cells {
		to := c.members[cell.member]
		if cell.own > 0 {
			to.own.add(row.record(cell.own))
		}
		if cell.node > 0 {
			to.store.add(row.node(cell.node))
		}
		for _, seen := range cell.views {
			to.views[seen.view].add(row.record(seen.record))
		}
	}
}

// size gives a bound for a row's length in a certified document. Bytes stand as hexadecimal digits there.
func (r *row) size() int {
	size, greatest := 0, 0
	for _, cell := range r.cells {
		if cell.own > 0 {
			length := len(r.record(cell.own)) + bytesOfDefaults
			size += length
			if length > greatest {
				greatest = length
			}
		}
		if cell.node > 0 {
			size += len(r.node(cell.node)) + bytesOfDefaults + 2*r.nodes[cell.node-1].text
		}
		for _, seen := range cell.views {
			size += len(r.record(seen.record)) + bytesOfDefaults
		}
	}
	return size + greatest + bytesOfRow
}
