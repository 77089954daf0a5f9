package halves

import (
	"sort"

	"syncthing-audit/part"
	"syncthing-audit/shell"
)

// hide keeps back a directory that .stignore ignores, and that no index has, until all names are told: a part has a hash in its place. The walk, which
// knows no index, told it by its name.
func (s *Stream) hide(name *part.Name) {
	s.hidden = append(s.hidden, &part.Name{Name: s.hashOf(string(name.Name)), Disk: &part.Node{}, Out: []part.LeftOut{{Kind: part.Ignored, Why: part.WhyIgnored}}})
}

// hasHidden says whether such names are still to be told.
func (s *Stream) hasHidden() bool {
	kept := s.hidden[:0:0]
	for _, name := range s.hidden {
		if !s.told[name.Name] {
			kept = append(kept, name)
		}
	}
	sort.Slice(kept, func(a, b int) bool { return kept[a].Name < kept[b].Name })
	s.hidden = kept
	return len(kept) > 0
}

// nextHidden gives the next of them, where it stands before the next names of both halves; nothing where another name does.
func (s *Stream) nextHidden(names ...*part.Name) *part.Name {
	if len(s.hidden) == 0 {
		return nil
	}
	for _, name := range names {
		if name != nil && !shell.IsBehindNames(string(name.Name)) {
			return nil
		}
	}
	if !s.hasHidden() {
		return nil
	}
	first := s.hidden[0]
	for _, name := range names {
		if name != nil && name.Name < first.Name {
			return nil
		}
	}
	s.hidden = s.hidden[1:]
	return first
}
