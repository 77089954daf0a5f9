package gather

import (
	"bytes"
	"fmt"
	"sort"

	"syncthing-audit/disk"
	"syncthing-audit/part"
)

// hidden is a name that a part tells by a hash. Either .stignore keeps it out of the folder and no index has it: Syncthing tells nobody of it, and
// a part may go to others. Or it is too long to be told. Devices that have one name have one hash of it.
type hidden struct {
	name   part.Hidden
	size   int64
	length int // of a name that is too long; 0 for one that is ignored
}

// hide keeps a name back until all others are told.
func (m *merge) hide(line *part.Name, isDeletable bool) {
	m.held.Take(string(line.Name), line.Disk.Size, isDeletable, func(name string) bool { return m.patterns.Match(name).IsIgnored() })
	m.hidden = append(m.hidden, hidden{part.HiddenName(m.folder, string(line.Name)), line.Disk.Size, 0})
}

// hideLong does so with a name that is too long. What an index has of it is left out with it.
func (m *merge) hideLong(line *part.Name) {
	size := sizeOf(line)
	for _, out := range line.Out {
		if out.Bytes > size {
			size = out.Bytes
		}
	}
	m.hidden = append(m.hidden, hidden{part.HiddenLongName(m.folder, string(line.Name)), size, len(line.Name)})
}

// line gives what a part has of such a name.
func (h hidden) line() *part.Name {
	name := &part.Name{Name: h.name.Bytes()}
	if h.length > 0 {
		why := fmt.Sprintf("its name has %d bytes: a part tells at most %d", h.length, part.MostNameBytes)
		if h.length <= part.MostNameBytes {
			why = "its name begins with bytes that stand before hashes in a part"
		}
		name.Out = []part.LeftOut{{Kind: part.OddName, Why: why, Bytes: h.size}}
		return name
	}
	name.Disk = &part.Node{Size: h.size}
	name.Out = []part.LeftOut{ignored(name)}
	return name
}

// sendHidden puts those that were kept back into the queue, in the order of their hashes. It says whether they are wanted.
func (m *merge) sendHidden() bool {
	sort.Slice(m.hidden, func(a, b int) bool { return bytes.Compare(m.hidden[a].name[:], m.hidden[b].name[:]) < 0 })
	for _, hidden := range m.hidden {
		if !m.to.Reserve(disk.WeightOfName) {
			return false
		}
		m.to.Put(&disk.Pending{Line: hidden.line(), Weight: disk.WeightOfName})
	}
	return true
}

// ignored says that .stignore ignores a name.
func ignored(line *part.Name) part.LeftOut {
	return part.LeftOut{Kind: part.Ignored, Why: part.WhyIgnored, Bytes: sizeOf(line)}
}
