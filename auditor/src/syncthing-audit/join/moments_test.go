package join

import (
	"fmt"
	"strings"
	"testing"

	"syncthing-audit/part"
)

func TestMoments(t *testing.T) {
	for _, one := range []struct {
		why     string
		indexID uint64
		max     int64
		told    string
	}{
		{"as far as the index goes", 2, 5, ""}, {"behind it", 2, 4, ""}, {"ahead of it", 2, 6, "earlier:moment"}, {"of an index that is gone", 9, 6, ""},
	} {
		devices := sharing(map[byte]string{1: "12", 2: "12"}, func(device byte, folder *part.Folder) {
			if device == 1 {
				folder.Views = []part.View{{Device: deviceID(2), IndexID: one.indexID, Max: one.max}}
			}
		})
		plan, err := NewPlan(devices, nil)
		if err != nil || refused(plan) != one.told || len(plan.Folders) != 1 || len(plan.Folders[0].Members) != 2 {
			t.Errorf("%s: %q, %v", one.why, refused(plan), err)
			continue
		}
		view := plan.Folders[0].Members[0].About.Views[0]
		if isClipped := view.Max == 5 && one.max > 5; plan.Folders[0].IsOfOneMoment() == (one.told != "") || isClipped != (one.told != "") {
			t.Errorf("%s: the view goes to %d", one.why, view.Max)
		}
		if head := devices[0].Head.Folders[0].Views[0]; head.Max != one.max {
			t.Errorf("%s: the part's own head has a view to %d, not %d", one.why, head.Max, one.max)
		}
	}
}

// What a device knows of others that is asked over the wire is taken from their parts. So it isn't known which names changed since: the earlier device
// is out.
func TestMomentsOverTheWire(t *testing.T) {
	devices := sharing(map[byte]string{1: "123", 2: "123", 3: "123"}, func(device byte, folder *part.Folder) {
		if device != 2 {
			folder.Views = []part.View{{Device: deviceID(2), IndexID: 2, Max: 6}}
		}
	})
	for _, one := range devices {
		one.Head.Wire, one.Head.Look = &part.Wire{}, &part.Look{ID: "one", After: map[string]string{deviceID(1): "one", deviceID(2): "one", deviceID(3): "one"}}
	}
	plan, err := NewPlan(devices, nil)
	if err != nil || refused(plan) != part.Moment || len(plan.Folders[0].Members) != 2 || plan.Folders[0].Member(deviceID(2)) >= 0 {
		t.Errorf("%q, %v", refused(plan), err)
	}
}

// A name is in motion where another device knows of it by a change behind a part's last one, also one that the part doesn't have. All others are
// compared as they are.
func TestNamesThatChangedAfterAPart(t *testing.T) {
	record := func(sequence int64) *part.Record {
		return &part.Record{Sequence: sequence, Version: [][2]uint64{{2, uint64(sequence)}}}
	}
	name := func(called string, own, seen int64) part.Line {
		made := &part.Name{Name: part.Bytes(called)}
		if own > 0 {
			made.Own = record(own)
		}
		if seen > 0 {
			made.Views = []part.Seen{{View: 0, Same: seen, Record: made.Own}}
		}
		return part.Line{Name: made}
	}
	devices := sharing(map[byte]string{1: "12", 2: "12"}, func(device byte, folder *part.Folder) {
		if device == 1 {
			folder.Views = []part.View{{Device: deviceID(2), IndexID: 2, Max: 7}}
		}
	})
	for place, names := range [][]part.Line{{name("changed", 1, 6), name("new", 2, 7), name("still", 3, 3), name("unheard", 4, 0)},
		{name("changed", 2, 0), name("still", 3, 0), name("unheard", 5, 0)}} {
		all := append([]part.Line{{Begin: &part.Begin{Folder: "docs"}}}, names...)
		devices[place].Stream = &lines{devices[place].Head, append(all, part.Line{End: &part.End{Folder: "docs", Max: 5}})}
	}
	plan, err := NewPlan(devices, nil)
	if err != nil {
		t.Fatal(err)
	}
	told := []string{}
	if _, err := plan.Folders[0].Rows(func(row *Row) error {
		told = append(told, fmt.Sprint(row.Name, row.Later, row.IsMoving()))
		return nil
	}); err != nil {
		t.Fatal(err)
	}
	if got := strings.Join(told, " "); got != "changed[1] true new[1] true still[] false unheard[] false" {
		t.Error(got)
	}
}
