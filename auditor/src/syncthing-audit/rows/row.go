package rows

import (
	"bytes"
	"strconv"

	"golang.org/x/exp/slices"
	"syncthing-audit/join"
	"syncthing-audit/part"
)

// row writes what the members of a folder have of a name, as a line of a stream.
type row struct {
	writer
	records []writtenRecord // of the name, each once
	nodes   []writtenNode   // each once
	cells   []cell
	isKnown bool // whether anything holds the name: a node, an own record, or one in a view that others may take
}

// writtenRecord is a record with its sequence in an index or view, and with where it is written.
type writtenRecord struct {
	record                       *part.Record
	number                       int64
	begin, sequence, behind, end int
}

// writtenNode is where a node is written, and how many bytes of text a file of it has there.
type writtenNode struct{ begin, end, text int }

// cell is what a member has of the name, by places that count from 1.
type cell struct {
	member    int
	own, node int
	views     []seen
}

// seen is a record in a view, by the view's place in the member's part.
type seen struct{ view, record int }

// take writes a row, and says whether the members have anything of the name. It is there until the next one.
func (r *row) take(of *cut, name *join.Row) bool {
	r.records, r.nodes, r.cells, r.written = r.records[:0], r.nodes[:0], r.cells[:0], r.written[:0]
	r.isKnown = false
	r.begin(name.Name)
	r.text(`["`)
	r.text(of.folder.ID)
	r.text(`",`)
	r.text(r.name)
	r.text(",[")
	for at, has := range name.At {
		if has != nil {
			r.addRecords(of, at, has)
		}
	}
	r.text("],[")
	for place := range r.cells {
		r.addNodeOf(&r.cells[place], name)
	}
	if len(r.records)+len(r.nodes) == 0 {
		return false
	}
	r.text("],[")
	for place := range r.cells {
		r.addCell(of, &r.cells[place])
	}
	r.text("]]\n")
	return true
}

// line gives the row's line.
func (r *row) line() []byte { return r.written }

// record gives the text of the record in a place that counts from 1.
func (r *row) record(place int) []byte {
	at := &r.records[place-1]
	return r.written[at.begin:at.end]
}

// node gives the text of the node in such a place.
func (r *row) node(place int) []byte {
	at := &r.nodes[place-1]
	return r.written[at.begin:at.end]
}

// addRecords writes those records of a member that aren't there yet.
func (r *row) addRecords(of *cut, at int, name *part.Name) {
	if len(r.cells) < cap(r.cells) {
		r.cells = r.cells[:len(r.cells)+1] // with the room that its list of views has
	} else {
		r.cells = append(r.cells, cell{})
	}
	made := &r.cells[len(r.cells)-1]
	*made = cell{member: at, views: made.views[:0]}
	r.isKnown = r.isKnown || name.Own != nil || name.Disk != nil
	if name.Own != nil {
		made.own = r.placeOf(name.Own, name.Own.Sequence)
	}
	for place := range name.Views {
		known := &name.Views[place]
		if of.members[at].views[known.View].number != 0 {
			r.isKnown = r.isKnown || !known.Record.Invalid
			made.views = append(made.views, seen{known.View, r.placeOf(known.Record, known.Sequence())})
		}
	}
}

// placeOf gives the place of a record with a sequence, which is written where it isn't there yet.
func (r *row) placeOf(record *part.Record, sequence int64) int {
	for place := range r.records {
		other := &r.records[place]
		if sequence == other.number && isOneButForSequence(record, other.record) {
			return place + 1
		}
	}
	made := writtenRecord{record: record, number: sequence}
	if count := len(r.records); count > 0 {
		r.text(",")
		r.addBehind(&made, &r.records[count-1])
	} else {
		r.addFirst(&made)
	}
	r.records = append(r.records, made)
	return len(r.records)
}

// addFirst writes a record.
func (r *row) addFirst(made *writtenRecord) {
	made.begin = len(r.written)
	r.addUntilSequence(made.record)
	r.addSequence(made)
	r.addBehindSequence(made.record)
	made.end = len(r.written)
}

// addBehind writes a record behind another one. Mostly it is that one but for its sequence, so the text is copied.
func (r *row) addBehind(made, other *writtenRecord) {
	if !isOneButForSequence(made.record, other.record) {
		r.addFirst(made)
		return
	}
	made.begin = len(r.written)
	r.written = append(r.written, r.written[other.begin:other.sequence]...)
	r.addSequence(made)
	r.written = append(r.written, r.written[other.behind:other.end]...)
	made.end = len(r.written)
}

func (r *row) addSequence(made *writtenRecord) {
	made.sequence = len(r.written)
	r.written = strconv.AppendInt(r.written, made.number, 10)
	made.behind = len(r.written)
}

// isOneButForSequence says whether a row says the same of two records, but for their sequences.
func isOneButForSequence(one, other *part.Record) bool {
	return one == other || one.Type == other.Type && one.ModifiedS == other.ModifiedS && one.ModifiedNs == other.ModifiedNs && one.ModifiedBy == other.ModifiedBy &&
		one.Deleted == other.Deleted && one.Invalid == other.Invalid && one.Target == other.Target && slices.Equal(one.Version, other.Version) &&
		(one.Content == other.Content || one.Content != nil && other.Content != nil && *one.Content == *other.Content)
}

// addNodeOf writes a member's node where it isn't there yet.
func (r *row) addNodeOf(to *cell, name *join.Row) {
	if name.At[to.member].Disk == nil {
		return
	}
	for _, other := range r.cells {
		if other.node > 0 && isOneNode(name.At, to.member, other.member) {
			to.node = other.node
			return
		}
	}
	before := len(r.written)
	if len(r.nodes) > 0 {
		r.text(",")
	}
	made := writtenNode{begin: len(r.written)}
	made.text = r.addNode(name.At, to.member)
	made.end = len(r.written)
	for place := range r.nodes {
		if bytes.Equal(r.node(place+1), r.written[made.begin:]) {
			r.written = r.written[:before]
			to.node = place + 1
			return
		}
	}
	r.nodes = append(r.nodes, made)
	to.node = len(r.nodes)
}

// isOneNode says whether a row says the same of two members' nodes, as far as that is seen without writing them.
func isOneNode(row []*part.Name, at, other int) bool {
	one, another := row[at].Disk, row[other].Disk
	return one.Type == another.Type && one.ModifiedS == another.ModifiedS && one.ModifiedNs == another.ModifiedNs && one.Target == another.Target &&
		(one.Contents == nil) == (another.Contents == nil) && (one.Contents == nil || *contentOnDisk(row, at) == *contentOnDisk(row, other)) &&
		bytes.Equal(one.Data, another.Data)
}

// addCell writes what a member has of the name; nothing where that is nothing.
func (r *row) addCell(in *cut, of *cell) {
	if of.own+of.node+len(of.views) == 0 {
		return
	}
	if r.written[len(r.written)-1] == ']' {
		r.text(",")
	}
	from := in.members[of.member]
	r.text(from.begin)
	r.written = strconv.AppendInt(r.written, int64(of.own), 10)
	r.text(",")
	r.written = strconv.AppendInt(r.written, int64(of.node), 10)
	r.text(",0,[") // no pulls are told: Syncthing has them in memory alone
	for place, seen := range of.views {
		if place > 0 {
			r.text(",")
		}
		r.text(from.views[seen.view].begin)
		r.written = strconv.AppendInt(r.written, int64(seen.record), 10)
		r.text("]")
	}
	r.text("]]")
}
