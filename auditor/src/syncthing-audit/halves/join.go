// Package halves joins the two halves of a device's part: what an observer was told over the wire, its records, and what stands on its disks, as a walk
// there found it.
package halves

import (
	"fmt"

	"golang.org/x/exp/slices"
	"syncthing-audit/part"
	"syncthing-audit/shell"
	"syncthing-audit/stignore"
)

// Join joins the halves of a device's part, and says why they aren't two halves of one. The walk is to lie between the observer's two looks: it knows
// the id of the first ones, and the second one knows the id of the walk.
func Join(wire, disks part.Stream) (*Stream, error) {
	records, half := wire.Head(), disks.Head()
	if records.Wire == nil || records.Wire.Half == "" || half.Half == nil {
		return nil, fmt.Errorf("they aren't a part over the wire and a part of disks")
	}
	switch {
	case records.Device != half.Device:
		return nil, fmt.Errorf("one is of device %s, the other one of %s", records.Device, half.Device)
	case half.Half.After != records.Look.ID:
		return nil, fmt.Errorf("the disks weren't walked after this observer's first look, but after another one's: have the walk made anew, by the command that " +
			"'observe' prints")
	case half.Half.ID != records.Wire.Half:
		return nil, fmt.Errorf("the observer's second look came after another walk of the disks than this one: observe anew")
	case records.Names != half.Names:
		return nil, fmt.Errorf("the observer looked at %s, and the disks were walked for %s: make both with the same %s", records.Names.Words(), half.Names.Words(),
			records.Unlike(half.Names))
	}
	stream := &Stream{wire: part.NewPeeking(wire), disks: part.NewPeeking(disks), folder: -1}
	var err error
	stream.head, err = joinHeads(records, half)
	return stream, err
}

// joinHeads gives the head of both halves. What the walk saw isn't unseen any more.
func joinHeads(records, half *part.Head) (*part.Head, error) {
	head := *records
	head.Half = half.Half
	wire := *records.Wire
	head.Wire = &wire
	head.Folders = append([]part.Folder{}, records.Folders...)
	for _, folder := range half.Folders {
		if records.Folder(folder.ID) == nil {
			return nil, fmt.Errorf("the disks have folder %s, at which the observer didn't look: walk only the folder of the observer's command", shell.Quoted(folder.ID))
		}
	}
	for place := range head.Folders {
		to := &head.Folders[place]
		from := half.Folder(to.ID)
		if from == nil {
			return nil, fmt.Errorf("the observer looked at folder %s, whose directory wasn't walked: walk it, too", shell.Folder(to.ID, to.Label))
		}
		to.Path, to.Directory, to.Marker, to.Ignores = from.Path, from.Directory, from.Marker, from.Ignores
		if from.Kind == "" { // its configuration wasn't read
			continue
		}
		if err := to.TakeConfigured(from); err != nil {
			return nil, fmt.Errorf("folder %s: %w: is the config.xml that was read Syncthing's own?", shell.Folder(to.ID, to.Label), err)
		}
	}
	wire.Unseen = head.StillUnseen()
	return &head, nil
}

// Stream gives a device's lines as its two halves have them.
type Stream struct {
	wire, disks *part.Peeking
	head        *part.Head
	folder      int // the place of the one whose names these are
	names       int64
	patterns    *stignore.Patterns // nothing where they aren't known
	unknown     string             // why
	toIgnore    stignore.ToIgnore
	told        map[part.Bytes]bool // hashes of names that .stignore ignores and some index has: these were told under their names
	hidden      []*part.Name        // that .stignore ignores and the walk told under their names
}

// Head gives the head of both halves.
func (s *Stream) Head() *part.Head { return s.head }

// Next gives the next line; io.EOF behind the last.
func (s *Stream) Next() (part.Line, error) {
	for {
		next, err := s.wire.Peek()
		if err != nil {
			return part.Line{}, s.checkEnd(err)
		}
		other, err := s.disks.Peek()
		if err != nil {
			return part.Line{}, fmt.Errorf("its half of the disks: %w", err)
		}
		switch {
		case next.Begin != nil && other.Begin != nil:
			s.begin()
			return s.take(*next), nil
		case next.End != nil && other.End != nil && !s.hasHidden():
			return s.take(part.Line{End: s.end(next.End, other.End)}), nil
		case next.Begin != nil || other.Begin != nil:
			return part.Line{}, fmt.Errorf("the folders of its two halves don't begin together")
		}
		if line := s.nextHidden(next.Name, other.Name); line != nil {
			s.names++
			return part.Line{Name: line}, nil
		}
		if line := s.name(next.Name, other.Name); line != nil {
			s.names++
			return part.Line{Name: line}, nil
		}
	}
}

// checkEnd says whether the half of the disks ends where that over the wire does.
func (s *Stream) checkEnd(err error) error {
	if _, left := s.disks.Peek(); left != err {
		return fmt.Errorf("its half of the disks goes on where that over the wire ends: %v, %w", left, err)
	}
	return err
}

// take takes the lines of both halves.
func (s *Stream) take(line part.Line) part.Line {
	s.wire.Take()
	s.disks.Take()
	return line
}

// begin begins a folder.
func (s *Stream) begin() {
	s.folder++
	s.names, s.toIgnore, s.told, s.hidden = 0, stignore.ToIgnore{}, map[part.Bytes]bool{}, nil
	ignores := s.head.Folders[s.folder].Ignores
	s.patterns, s.unknown = nil, ignores.Unknown
	if s.unknown != "" {
		return
	}
	var err error
	if s.patterns, err = stignore.Parse(ignores.Lines, ignores.FoldCase); err != nil {
		s.unknown = err.Error()
	}
}

// end gives the end of a folder: of the index by what the observer was told, of the disks by the walk.
func (s *Stream) end(wire, disks *part.End) *part.End {
	end := *wire
	end.Names, end.Bytes, end.Temporary, end.Linked = s.names, disks.Bytes, disks.Temporary, disks.Linked
	end.Holding, end.Deletable = disks.Holding, disks.Deletable
	if s.head.Names.IsAll() {
		s.toIgnore.End()
		end.ToIgnore = s.toIgnore.Names
	}
	return &end
}

// name takes the lesser of two names, or both where they are one, and gives what is told of it; nothing of what was told already. One of them may be
// at its end.
func (s *Stream) name(name, other *part.Name) *part.Name {
	switch {
	case other == nil || name != nil && name.Name < other.Name:
		s.wire.Take()
		return s.join(name, nil)
	case name == nil || other.Name < name.Name:
		s.disks.Take()
		return s.join(nil, other)
	}
	s.wire.Take()
	s.disks.Take()
	return s.join(name, other)
}

// join joins what the halves have of a name; one of them may have nothing.
func (s *Stream) join(wire, disk *part.Name) *part.Name {
	name := &part.Name{}
	if disk != nil {
		if wire == nil && s.told[disk.Name] {
			return nil
		}
		*name = *disk
	}
	if wire != nil {
		name.Name, name.Own = wire.Name, wire.Own
		name.Out = append(append([]part.LeftOut{}, wire.Out...), name.Out...)
		name.Moved = union(wire.Moved, name.Moved)
	}
	if shell.IsBehindNames(string(name.Name)) { // a hash in place of a name
		return name
	}
	name = s.byPatterns(name, wire != nil)
	if wire == nil && name.IsIgnored() {
		s.hide(name)
		return nil
	}
	if len(name.Moved) > 0 {
		return &part.Name{Name: name.Name, Moved: name.Moved}
	}
	if name.Disk != nil {
		s.fit(name)
		if wire != nil && name.HasOtherBytes() {
			name.Disk.Differ = wire.Differ
		}
	}
	if len(name.Out) == 0 && !name.IsAsRecorded(s.head.Folders[s.folder].Window()) {
		waits := *name
		return &part.Name{Name: name.Name, Moved: []string{part.MovedUnscanned}, Waits: &waits}
	}
	return name
}

// union gives all of both, each once.
func union(some, other []string) []string {
	words := append([]string{}, some...)
	for _, word := range other {
		if !slices.Contains(words, word) {
			words = append(words, word)
		}
	}
	return words
}
