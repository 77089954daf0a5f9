package read

import (
	"testing"

	"syncthing-audit/join"
)

// Of names that are one file on a disk nothing is foretold if several of them aren't at rest: what a pull sets at one, it sets at all.
func TestNamesOfOneFile(t *testing.T) {
	linked := func(link int64, isRestless bool) func(row *join.Row) {
		return func(row *join.Row) {
			if row.At[0].Disk.Link = link; isRestless {
				row.At[1].Disk.Contents[0].Hash[0] = 9
			}
		}
	}
	elsewhere := func(row *join.Row) {
		row.At[1].Disk.Link, row.At[1].Disk.Contents[0].Hash[0] = 1, 9
	}
	for why, one := range map[string]struct {
		rows    []*join.Row
		unknown []string
	}{
		"both wait":                 {[]*join.Row{calm("a", linked(1, true)), calm("b", linked(1, true))}, []string{"a", "b"}},
		"a third one":               {[]*join.Row{calm("a", linked(1, true)), calm("b", linked(1, true)), calm("c", linked(0, true))}, []string{"a", "b"}},
		"one is at rest":            {[]*join.Row{calm("a", linked(1, true)), calm("b", linked(1, false))}, nil},
		"two files":                 {[]*join.Row{calm("a", linked(1, true)), calm("b", linked(2, true))}, nil},
		"the same number elsewhere": {[]*join.Row{calm("a", linked(1, true)), calm("b", elsewhere)}, nil},
		"its other name is outside": {[]*join.Row{calm("a", linked(1, true))}, nil},
	} {
		rows := NewRows(folderOf(2))
		for _, row := range one.rows {
			rows.Take(row)
		}
		rows.World()
		if len(rows.Unknown) != len(one.unknown) {
			t.Errorf("%s: %v", why, rows.Unknown)
		}
		for _, name := range one.unknown {
			if rows.Unknown[name] != Linked || rows.Places[Linked] != 1<<0 {
				t.Errorf("%s: %v, %v", why, rows.Unknown, rows.Places)
			}
		}
	}
}
