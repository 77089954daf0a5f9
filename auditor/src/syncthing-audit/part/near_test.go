package part

import (
	"testing"
	"time"
)

// Syncthing takes two times of a file for one where they differ by less than the folder's window. Sizes and kinds are compared all the same.
func TestNearTimes(t *testing.T) {
	for _, one := range []struct {
		why           string
		seconds       int64
		nanoseconds   int
		window        int64
		change        func(*Name)
		is, asWritten bool
	}{
		{"the same", 100, 7, 2, nil, false, true},
		{"later by less", 102, 6, 2, nil, true, true},
		{"later by the window", 102, 7, 2, nil, false, false},
		{"earlier by less", 98, 8, 2, nil, true, true},
		{"earlier by the window", 98, 7, 2, nil, false, false},
		{"without a window", 100, 8, 0, nil, false, false},
		{"another size", 101, 7, 2, func(n *Name) { n.Disk.Size = 6 }, false, false},
		{"a symlink in its place", 101, 7, 2, func(n *Name) { n.Disk.Type, n.Disk.Target = symlink, "a" }, false, false},
		{"no file on the disk", 101, 7, 2, func(n *Name) { n.Disk = nil }, false, false},
		{"a deletion", 101, 7, 2, func(n *Name) { n.Own.Deleted, n.Own.Content = true, nil }, false, false},
		{"no record", 101, 7, 2, func(n *Name) { n.Own = nil }, false, false},
		{"a directory", 101, 7, 2, func(n *Name) { n.Own.Type, n.Own.Content, n.Disk.Type, n.Disk.Size = 1, nil, 1, 0 }, false, true},
	} {
		made := &Name{Own: &Record{ModifiedS: 100, ModifiedNs: 7, Content: &Content{Size: 5}}, Disk: &Node{ModifiedS: one.seconds, ModifiedNs: one.nanoseconds, Size: 5}}
		if one.change != nil {
			one.change(made)
		}
		window := (&Folder{TimeWindow: one.window}).Window()
		if made.HasNearTime(window) != one.is || made.IsAsRecorded(window) != one.asWritten {
			t.Errorf("%s: %v, as recorded %v", one.why, made.HasNearTime(window), made.IsAsRecorded(window))
		}
		if one.is {
			if made.TakeTime(); !made.IsAsRecorded(0) || made.HasNearTime(time.Hour) {
				t.Errorf("%s: %+v", one.why, made.Disk)
			}
		}
	}
}
