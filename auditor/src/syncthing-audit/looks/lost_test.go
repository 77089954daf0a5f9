package looks

import (
	"testing"

	"syncthing-audit/part"
)

// What a disk fails to give at the second look alone is damaged, as at the first one, and isn't in motion: whether both looks have the name or the
// second one alone, whatever else changed of it.
func TestWhatADiskFailsToGiveAtTheSecondLook(t *testing.T) {
	lost := func(name *part.Name) {
		name.Disk, name.Out = nil, []part.LeftOut{{Kind: part.Damaged, Why: "input/output error"}}
	}
	for why, one := range map[string]struct {
		first  []*part.Name
		second func(*part.Name)
	}{
		"it was there":      {[]*part.Name{aFile(unchanged)}, lost},
		"only then":         {nil, lost},
		"and its record":    {[]*part.Name{aFile(unchanged)}, func(name *part.Name) { lost(name); name.Own.Sequence++ }},
		"and at both":       {[]*part.Name{aFile(lost)}, lost},
		"and it was unread": {[]*part.Name{aFile(func(name *part.Name) { name.Out = []part.LeftOut{{Kind: part.Special, Why: "a fifo"}} })}, lost},
	} {
		stream, err := Join(firstLook(one.first...), secondLook(aFile(one.second)))
		if err != nil {
			t.Fatal(why, err)
		}
		var told *part.Name
		for line, err := stream.Next(); err == nil; line, err = stream.Next() {
			if line.Name != nil {
				told = line.Name
			}
		}
		if told == nil || !told.IsDamaged() || len(told.Moved) > 0 {
			t.Errorf("%s: %+v", why, told)
		}
	}
}

// So it is with what it fails to give at the first look, whatever the second one has, and whatever else the first one has.
func TestWhatADiskFailsToGiveAtTheFirstLook(t *testing.T) {
	lost := []part.LeftOut{{Kind: part.Damaged, Why: "input/output error"}}
	gone := func(name *part.Name) { name.Disk, name.Out = nil, lost }
	found := func(name *part.Name) { name.Out = lost } // at one of its walks alone
	for why, one := range map[string][2]func(*part.Name){
		"at the first alone":             {gone, unchanged},
		"at one walk of the first":       {found, unchanged},
		"at one walk, and at the second": {found, gone},
		"at both":                        {gone, gone},
		"and its record changed":         {gone, func(name *part.Name) { name.Own.Sequence++ }},
		"and at the second it's another": {gone, func(name *part.Name) { name.Disk.Stamp = "another" }},
	} {
		stream, err := Join(firstLook(aFile(one[0])), secondLook(aFile(one[1])))
		if err != nil {
			t.Fatal(why, err)
		}
		var told *part.Name
		for line, err := stream.Next(); err == nil; line, err = stream.Next() {
			if line.Name != nil {
				told = line.Name
			}
		}
		if told == nil || !told.IsDamaged() || len(told.Moved) > 0 || len(told.Out) != 1 {
			t.Errorf("%s: %+v", why, told)
		}
	}
}
