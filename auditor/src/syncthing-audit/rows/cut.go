package rows

import (
	"bytes"
	"fmt"

	"syncthing-audit/join"
	"syncthing-audit/part"
)

// cut is what a stream's header or a document says of a folder: its members, with lists of what they have of names.
type cut struct {
	folder  *join.Folder
	members []*member
}

// member is what is said of one device.
type member struct {
	join.Member
	begin      string // of what a row says of it
	own, store list
	views      []viewed // by their places in the device's part
}

// viewed is a view of another member; its number is 0 where that isn't one.
type viewed struct {
	about  part.View
	number uint64
	begin  string // of what a row says of it
	list
}

// cutOf gives what is said of a folder without names.
func cutOf(folder *join.Folder) *cut {
	made := &cut{folder: folder}
	for _, from := range folder.Members {
		next := &member{Member: from, begin: beginOf(from.Number), views: make([]viewed, len(from.About.Views))}
		for place, of := range from.About.Views {
			if folder.Member(of.Device) >= 0 {
				number := part.Number(of.Device)
				next.views[place] = viewed{about: of, number: number, begin: beginOf(number)}
			}
		}
		made.members = append(made.members, next)
	}
	return made
}

// beginOf begins a list whose first item is a device.
func beginOf(device uint64) string { return fmt.Sprintf("[%d,", device) }

// takeSequences takes the sequence numbers of a name, and says whether another name has one of them.
func (c *cut) takeSequences(row *join.Row) *part.LeftOut {
	free := true
	for at, name := range row.At {
		if name == nil {
			continue
		}
		if name.Own != nil {
			free = c.members[at].own.take(name.Own.Sequence) && free
		}
		for place := range name.Views {
			seen := &name.Views[place]
			free = c.members[at].views[seen.View].take(seen.Sequence()) && free
		}
	}
	if free {
		return nil
	}
	return &part.LeftOut{Kind: part.OddRecord, Why: "another name has its sequence number, too"}
}

// reset takes all names away.
func (c *cut) reset() {
	for _, member := range c.members {
		member.own.reset()
		member.store.reset()
		for place := range member.views {
			member.views[place].reset()
		}
	}
}

// write gives the cut as one line.
func (c *cut) write() []byte {
	var to bytes.Buffer
	fmt.Fprintf(&to, `{"version":2,"cut":{"folders":[{"folder":%q,"devices":[`, c.folder.ID)
	for place, member := range c.members {
		if place > 0 {
			to.WriteByte(',')
		}
		member.write(&to)
	}
	to.WriteString(`]}],"links":[`)
	c.writeLinks(&to)
	to.WriteString("]}}\n")
	return to.Bytes()
}

// write writes what is said of a device. No pulls are written: Syncthing has them in memory alone.
func (m *member) write(to *bytes.Buffer) {
	fmt.Fprintf(to, `{"device":%d,"kind":%q,"index_id":%d,"max":%d,"own":[`, m.Number, m.About.Kind, m.About.IndexID, m.About.Max)
	to.Write(m.own.written.Bytes())
	to.WriteString(`],"store":[`)
	to.Write(m.store.written.Bytes())
	to.WriteString(`],"views":[`)
	separator := ""
	for place := range m.views {
		viewed := &m.views[place]
		if viewed.number == 0 {
			continue
		}
		fmt.Fprintf(to, `%s{"of":%d,"index_id":%d,"max":%d,"records":[`, separator, viewed.number, viewed.about.IndexID, viewed.about.Max)
		to.Write(viewed.written.Bytes())
		to.WriteString("]}")
		separator = ","
	}
	to.WriteString("]}")
}

// writeLinks writes a link, down and empty, for each two members that share the folder with each other.
func (c *cut) writeLinks(to *bytes.Buffer) {
	separator := ""
	for place, member := range c.members {
		for _, other := range c.members[place+1:] {
			if !member.sharesWith(other) {
				continue
			}
			fmt.Fprintf(to, `%s{"a":%d,"b":%d,"up":false,"epoch":0}`, separator, member.Number, other.Number)
			separator = ","
		}
	}
}

func (m *member) sharesWith(other *member) bool {
	for _, sharing := range m.About.Sharing {
		if sharing.Device == other.Head.Device {
			return true
		}
	}
	return false
}
