package read

import (
	"fmt"
	"testing"

	"golang.org/x/exp/slices"
)

// A conflict copy that is at rest isn't known where one more copy may take its place, whether it comes before what it is a copy of or behind that. Others stay out.
func TestConflictCopiesThatMayGo(t *testing.T) {
	const copied = ".sync-conflict-20260101-101010-AAAAAAA"
	for why, one := range map[string]struct {
		root, copy string
		most       int
		isAtRest   bool
		names      []string
	}{
		"too many":                   {"a", "a" + copied, 1, false, []string{"a", "a" + copied}},
		"the copy comes first":       {"x.txt", "x" + copied + ".txt", 1, false, []string{"x" + copied + ".txt", "x.txt"}},
		"there is room":              {"a", "a" + copied, 10, false, []string{"a"}},
		"all are kept":               {"a", "a" + copied, -1, false, []string{"a"}},
		"the name itself is at rest": {"a", "a" + copied, 1, true, nil},
		"a copy of another name":     {"b", "a" + copied, 1, false, []string{"b"}},
	} {
		folder := folderOf(2)
		folder.Members[0].About.Options.MaxConflicts, folder.Members[1].About.Options.MaxConflicts = -1, one.most
		rows, change := NewRows(folder), restless[1].change
		if one.isAtRest {
			change = nil
		}
		rowOfRoot, rowOfCopy := calm(one.root, change), calm(one.copy, nil)
		if one.copy < one.root {
			rows.Take(rowOfCopy)
		}
		rows.Take(rowOfRoot)
		if one.copy > one.root {
			rows.Take(rowOfCopy)
		}
		names := []string{}
		for _, name := range rows.World().Names {
			names = append(names, name.Name)
		}
		slices.Sort(names)
		if fmt.Sprint(names) != fmt.Sprint(one.names) {
			t.Errorf("%s: %q, not %q", why, names, one.names)
		}
		if isUnknown := rows.Unknown[one.copy] == Copies; isUnknown != slices.Contains(one.names, one.copy) {
			t.Errorf("%s: %v", why, rows.Unknown)
		}
	}
}
