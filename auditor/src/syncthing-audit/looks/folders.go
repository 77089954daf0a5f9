package looks

import (
	"errors"
	"sort"

	"syncthing-audit/part"
)

// errOtherFolders says that one of both looks is without a folder.
var errOtherFolders = errors.New("its two looks are at other folders: make both with the same --folder")

// joinFolders joins what the heads of two looks say of each folder. One that one look is without, or whose looks don't go together, is told as one that
// the device hasn't here, with why.
func (s *Stream) joinFolders() {
	head, other := s.first.Head(), s.second.Head()
	s.head.Folders, s.kept = []part.Folder{}, map[string]bool{}
	if s.head.Others != nil { // an older program's part doesn't tell which others there are
		s.head.Others = append([]part.Other{}, s.head.Others...)
	}
	for place := range head.Folders {
		folder := &head.Folders[place]
		second := other.Folder(folder.ID)
		if second == nil {
			s.lack(folder, other, errOtherFolders)
		} else if joined, err := joinFolder(folder, second); err != nil {
			s.lack(folder, other, err)
		} else {
			s.head.Folders = append(s.head.Folders, *joined)
			s.kept[folder.ID] = true
		}
	}
	for place := range other.Folders {
		if folder := &other.Folders[place]; head.Folder(folder.ID) == nil {
			s.lack(folder, head, errOtherFolders)
		}
	}
	sort.SliceStable(s.head.Others, func(a, b int) bool { return s.head.Others[a].ID < s.head.Others[b].ID })
}

// lack notes a folder that isn't joined, with why. Where the other look was without it since it was away, that is why.
func (s *Stream) lack(folder *part.Folder, other *part.Head, why error) {
	lacking := part.Other{ID: folder.ID, Label: folder.Label, Devices: []string{}, Apart: why.Error()}
	if away := other.Other(folder.ID); away != nil && away.Away != "" {
		lacking = *away
	}
	for _, sharing := range folder.Sharing {
		lacking.Devices = append(lacking.Devices, sharing.Device)
	}
	for place := range s.head.Others {
		if s.head.Others[place].ID == folder.ID {
			s.head.Others[place] = lacking
			return
		}
	}
	s.head.Others = append(s.head.Others, lacking)
}

// next gives the next line of the folders that are joined, without taking it.
func (r *reading) next(kept map[string]bool) (*part.Line, error) {
	for {
		line, err := r.Peek()
		if err != nil || line.Begin == nil || kept[line.Begin.Folder] {
			return line, err
		}
		for isOver := false; !isOver; {
			if line, err = r.Peek(); err != nil {
				return nil, err
			}
			isOver = line.End != nil
			r.Take()
		}
	}
}
