package forecast

import "testing"

// A directory in step holds nothing together; one with another mode on a disk, or that a device knows otherwise, does.
func TestDirectoriesInStep(t *testing.T) {
	directory := func() Name {
		name := inStep("d", "", 2, 1)
		entry := &Record{Type: Directory, Version: []Counter{{10, 1}}, Mode: 0o755}
		for i := range name.Own {
			name.Own[i], name.Views[i][1-i], name.Disk[i] = entry, entry, &Node{Type: Directory, Mode: 0o755}
		}
		return name
	}
	otherMode, heardOtherwise, missing, unheard := directory(), directory(), directory(), directory()
	otherMode.Disk[1].Mode = 0o700
	heardOtherwise.Views[0][1] = &Record{Type: Directory, Version: []Counter{{10, 1}, {20, 1}}, Mode: 0o755}
	missing.Disk[0] = nil
	unheard.Views[1][0] = nil
	for why, row := range map[string]struct {
		directory Name
		groups    int
	}{"in step": {directory(), 3}, "another mode": {otherMode, 1}, "heard otherwise": {heardOtherwise, 1}, "missing": {missing, 1}, "unheard": {unheard, 1}} {
		if found := len(split([]Name{row.directory, inStep("d/a", "a", 2, 1), inStep("d/b", "b", 2, 1)})); found != row.groups {
			t.Errorf("%s: %d groups", why, found)
		}
	}
}
