package looks

import (
	"errors"
	"fmt"
	"io"
	"reflect"

	"golang.org/x/exp/slices"
	"syncthing-audit/part"
)

// Stream gives a device's lines as they were at both of two looks, and which names changed between them.
type Stream struct {
	first, second *reading
	head          *part.Head
	kept          map[string]bool // the folders that are joined
	folder        int             // the place of the one whose names these are
	names         int64
}

// reading is the part of a look.
type reading struct{ *part.Peeking }

// Join joins the two looks at a device. It says why they aren't two looks at one, or what changed that makes them useless.
func Join(first, second part.Stream) (*Stream, error) {
	begun, other := first.Head(), second.Head()
	if begun.Look == nil || other.Look == nil || !begun.Look.IsFirst() || !other.Look.IsSecond() {
		return nil, errNoLook
	}
	switch {
	case begun.Device != other.Device:
		return nil, fmt.Errorf("the first look is at device %s, the second one at %s", begun.Device, other.Device)
	case other.Look.After[begun.Device] != begun.Look.ID:
		return nil, fmt.Errorf("its second look has no token of this first look: make the second one anew")
	case begun.Look.Home != other.Look.Home:
		return nil, fmt.Errorf("the first look is at another home than the second one")
	case begun.Names != other.Names:
		return nil, fmt.Errorf("the first look is at %s, and the second one at %s: make both with the same %s", begun.Names.Words(), other.Names.Words(),
			begun.Unlike(other.Names))
	}
	stream := &Stream{first: &reading{part.NewPeeking(first)}, second: &reading{part.NewPeeking(second)}, folder: -1}
	head := *begun
	head.Look = &part.Look{Home: begun.Look.Home, ID: begun.Look.ID, After: other.Look.After, At: begun.Look.At, Ended: other.Look.At}
	stream.head = &head
	stream.joinFolders()
	return stream, nil
}

// joinFolder joins what the heads of two looks say of a folder. Its own greatest sequence is that of the second look. The
// greatest sequences of its views are of both.
func joinFolder(folder, other *part.Folder) (*part.Folder, error) {
	switch {
	case folder.IndexID != other.IndexID:
		return nil, errors.New("its index was made anew between the two looks: begin again")
	case folder.Max > other.Max:
		return nil, fmt.Errorf("its index went back from change %d to %d between the two looks: begin again", folder.Max, other.Max)
	case folder.Directory != other.Directory || folder.Kind != other.Kind || folder.IgnoresPermissions != other.IgnoresPermissions ||
		folder.ScansAttributes != other.ScansAttributes || folder.TimeWindow != other.TimeWindow ||
		!reflect.DeepEqual(folder.Sharing, other.Sharing):
		return nil, errors.New("its configuration changed between the two looks: begin again")
	}
	joined := *folder
	joined.Max, joined.Paused, joined.PausedDevices, joined.Rest = other.Max, other.Paused, other.PausedDevices, other.Rest
	joined.Views = append([]part.View{}, folder.Views...)
	for _, view := range other.Views {
		at := slices.IndexFunc(joined.Views, func(had part.View) bool { return had.Device == view.Device })
		if at < 0 {
			at = len(joined.Views)
			joined.Views = append(joined.Views, part.View{Device: view.Device})
		}
		if joined.Views[at].IndexID == view.IndexID {
			joined.Views[at].Heard = view.Max
		}
	}
	return &joined, nil
}

// Head gives the head of both looks.
func (s *Stream) Head() *part.Head { return s.head }

// Next gives the next line; io.EOF behind the last.
func (s *Stream) Next() (part.Line, error) {
	line, err := s.first.next(s.kept)
	if err == io.EOF {
		if _, left := s.second.next(s.kept); left != io.EOF {
			return part.Line{}, fmt.Errorf("its second look goes on where the first one ends: %v", left)
		}
	}
	if err != nil {
		return part.Line{}, err
	}
	other, err := s.second.next(s.kept)
	if err != nil {
		return part.Line{}, fmt.Errorf("its second look: %w", err)
	}
	switch {
	case line.Begin != nil && other.Begin != nil:
		s.folder++
		s.names = 0
		return s.take(*line), nil
	case line.End != nil && other.End != nil:
		end := *line.End
		end.Names, end.Max, end.Temporary, end.Linked, end.ToIgnore = s.names, other.End.Max, other.End.Temporary, other.End.Linked, other.End.ToIgnore
		end.Holding, end.Deletable = other.End.Holding, other.End.Deletable
		return s.take(part.Line{End: &end}), nil
	case line.Begin != nil || other.Begin != nil:
		return part.Line{}, fmt.Errorf("the folders of its two looks don't begin together")
	}
	s.names++
	return s.name(line.Name, other.Name), nil
}

// take takes the lines of both looks.
func (s *Stream) take(line part.Line) part.Line {
	s.first.Take()
	s.second.Take()
	return line
}

// name gives the lesser of two names, or joins what both looks say of one name. One of them may be at its end.
func (s *Stream) name(name, other *part.Name) part.Line {
	switch {
	case other == nil || name != nil && name.Name < other.Name:
		s.first.Take()
		return part.Line{Name: onlyOnce(name)}
	case name == nil || other.Name < name.Name:
		s.second.Take()
		return part.Line{Name: onlyOnce(other)}
	}
	return s.take(part.Line{Name: s.both(name, other)})
}

// onlyOnce gives a name that one look has alone. A name that .stignore keeps out is none of the folder's.
func onlyOnce(name *part.Name) *part.Name {
	if name.IsIgnored() {
		return &part.Name{Name: name.Name, Disk: name.Disk, Out: name.Out}
	}
	if lost := lostBy(name); len(lost) > 0 {
		return &part.Name{Name: name.Name, Out: lost}
	}
	told := &part.Name{Name: name.Name, Moved: name.Moved}
	add := func(is bool, why string) {
		if is && !slices.Contains(told.Moved, why) {
			told.Moved = append(told.Moved, why)
		}
	}
	add(name.Own != nil, part.MovedRecord)
	add(len(name.Views) > 0, part.MovedViews)
	add(name.Receiving != "", part.MovedReceiving)
	add(name.Disk != nil || len(told.Moved) == 0, part.MovedDisk)
	return told
}

// lostBy gives what a disk itself fails to give of a name. Nobody's change does that, so such a name isn't in motion.
func lostBy(name *part.Name) []part.LeftOut {
	var lost []part.LeftOut
	for _, out := range name.Out {
		if out.Kind == part.Damaged {
			lost = append(lost, out)
		}
	}
	return lost
}

// both gives a name that both looks have: as it is where it is still, or what changed.
func (s *Stream) both(name, other *part.Name) *part.Name {
	if name.IsIgnored() && other.IsIgnored() {
		return s.still(name)
	}
	if first, second := lostBy(name), lostBy(other); len(first)+len(second) > 0 {
		told := s.still(name)
		if told.Moved = nil; !name.IsDamaged() {
			told.Out = append(append([]part.LeftOut(nil), name.Out...), second...)
		}
		return told
	}
	moved := append([]string(nil), name.Moved...)
	add := func(is bool, why string) {
		if is && !slices.Contains(moved, why) {
			moved = append(moved, why)
		}
	}
	for _, why := range other.Moved {
		add(true, why)
	}
	if len(moved) == 0 {
		sameDisk := name.Disk.Mark() == other.Disk.Mark()
		add(!reflect.DeepEqual(name.Own, other.Own), part.MovedRecord)
		add(!reflect.DeepEqual(s.first.viewsOf(name, s.head.Folders[s.folder].ID), s.second.viewsOf(other, s.head.Folders[s.folder].ID)), part.MovedViews)
		add(name.Receiving != other.Receiving, part.MovedReceiving)
		add(!sameDisk || !isOutAlike(name, other), part.MovedDisk)
		add(len(name.Out) == 0 && sameDisk && !s.atLast(name, other).IsAsRecorded(s.head.Folders[s.folder].Window()), part.MovedUnscanned)
	}
	if len(moved) > 0 {
		return &part.Name{Name: name.Name, Moved: moved, Waits: s.waiting(name, other)}
	}
	return s.still(name)
}

// waiting gives the record and the disk of a name whose disk is the same at both looks, and isn't as the last record says. It gives nothing of others.
func (s *Stream) waiting(name, other *part.Name) *part.Name {
	told := s.atLast(name, other)
	isKnown := len(name.Moved)+len(other.Moved)+len(name.Out)+len(other.Out) == 0 && name.Disk.Mark() == other.Disk.Mark()
	if !isKnown || told.IsAsRecorded(s.head.Folders[s.folder].Window()) {
		return nil
	}
	return told
}

// atLast gives what stands on the disk at both looks beside the last record. A pull puts a file in its place, and records it a moment later: between the two a look sees
// a disk that isn't as recorded, and yet no scan has to see it.
func (s *Stream) atLast(name, other *part.Name) *part.Name {
	return s.still(&part.Name{Name: name.Name, Own: other.Own, Disk: name.Disk})
}

// still gives a name of the first look as both looks have it.
func (s *Stream) still(name *part.Name) *part.Name {
	told := *name
	told.Receiving = ""
	if told.Disk != nil {
		node := *told.Disk
		node.Stamp = ""
		told.Disk = &node
	}
	return &told
}

// seen is a record in a view, with the index that it is of.
type seen struct {
	index  uint64
	record part.Record
}

// viewsOf gives the records of a name's views, by device.
func (r *reading) viewsOf(name *part.Name, folder string) map[string]seen {
	views := map[string]seen{}
	for _, view := range name.Views {
		of, record := r.Head().Folder(folder).Views[view.View], *view.Record
		record.Sequence = view.Sequence()
		views[of.Device] = seen{of.IndexID, record}
	}
	return views
}

// isOutAlike says whether both looks leave a name out for the same reasons. Only the first one reads files, so what can't
// be read is told by it alone.
func isOutAlike(name, other *part.Name) bool {
	reasons := func(of *part.Name) [][2]string {
		texts := [][2]string{}
		for _, out := range of.Out {
			if out.Kind != part.Unreadable || of.Disk == nil {
				texts = append(texts, [2]string{out.Kind, out.Why})
			}
		}
		return texts
	}
	return reflect.DeepEqual(reasons(name), reasons(other))
}
