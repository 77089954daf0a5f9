package part

import (
	"errors"

	"golang.org/x/exp/slices"
)

// shortener shortens names for writing, one at a time, each in the room of the one before.
type shortener struct {
	name  Name
	views []Seen
}

// shorten gives a name of which a view says only the sequence there, if the rest is the own record's.
func (s *shortener) shorten(name *Name) *Name {
	if name.Own == nil || len(name.Views) == 0 {
		return name
	}
	s.name, s.views = *name, append(s.views[:0], name.Views...)
	for place := range s.views {
		if seen := &s.views[place]; isSame(name.Own, seen.Record) {
			*seen = Seen{View: seen.View, Same: seen.Sequence()}
		}
	}
	s.name.Views = s.views
	return &s.name
}

// isSame says whether two records are one but for their sequences.
func isSame(own, other *Record) bool {
	if own.Type != other.Type || own.ModifiedS != other.ModifiedS || own.ModifiedNs != other.ModifiedNs || own.ModifiedBy != other.ModifiedBy ||
		own.Deleted != other.Deleted || own.Invalid != other.Invalid || own.Target != other.Target {
		return false
	}
	return slices.Equal(own.Version, other.Version) && slices.Equal(own.Local, other.Local) && slices.Equal(own.Blocks, other.Blocks) &&
		isEqual(own.Content, other.Content) && isEqual(own.Permissions, other.Permissions)
}

// isEqual says whether there is the same, or neither.
func isEqual[Any comparable](one, other *Any) bool {
	return one == other || one != nil && other != nil && *one == *other
}

// lengthen gives each view of a name its record.
func lengthen(name *Name) error {
	for place := range name.Views {
		seen := &name.Views[place]
		switch {
		case (seen.Record != nil) == (seen.Same != 0):
			return errors.New("a view has a record and a sequence, or neither")
		case seen.Record != nil:
			continue
		case name.Own == nil:
			return errors.New("a view has the own record, and there is none")
		}
		seen.Record = name.Own
	}
	return nil
}
