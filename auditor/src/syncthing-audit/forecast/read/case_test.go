package read

import (
	"testing"

	"syncthing-audit/join"
)

// Of names that differ by case alone, and of what is below such, nothing is foretold where a disk takes them for one: whichever of both is at rest.
func TestNamesThatDifferByCaseAlone(t *testing.T) {
	deleted := func(row *join.Row) {
		for _, at := range row.At {
			at.Own.Deleted, at.Own.Content, at.Disk = true, nil, nil
			for place := range at.Views {
				at.Views[place].Record = at.Own
			}
		}
	}
	restlessly := restless[1].change
	for why, one := range map[string]struct {
		ignores bool
		rows    []*join.Row
		unknown []string
	}{
		"one is at rest":          {true, []*join.Row{calm("A", restlessly), calm("a", nil)}, []string{"A"}},
		"the later one":           {true, []*join.Row{calm("A", nil), calm("a", restlessly)}, []string{"a"}},
		"below one":               {true, []*join.Row{calm("D", nil), calm("D/x", nil), calm("d", nil), calm("d/y", restlessly)}, []string{"d/y"}},
		"letters beyond ASCII":    {true, []*join.Row{calm("MÜLL", nil), calm("müll", restlessly)}, []string{"müll"}},
		"one is deleted":          {true, []*join.Row{calm("A", deleted), calm("a", restlessly)}, nil},
		"another name":            {true, []*join.Row{calm("A", nil), calm("b", restlessly)}, nil},
		"the disk tells them":     {false, []*join.Row{calm("A", nil), calm("a", restlessly)}, nil},
		"the same letters longer": {true, []*join.Row{calm("A", nil), calm("aa", restlessly)}, nil},
	} {
		folder := folderOf(2)
		folder.Members[1].About.Options.IgnoresCase = one.ignores
		rows := NewRows(folder)
		for _, row := range one.rows {
			rows.Take(row)
		}
		rows.World()
		if len(rows.Unknown) != len(one.unknown) {
			t.Errorf("%s: %v", why, rows.Unknown)
		}
		for _, name := range one.unknown {
			if rows.Unknown[name] != Case || rows.Places[Case] != 1<<1 {
				t.Errorf("%s: %v, %v", why, rows.Unknown, rows.Places)
			}
		}
	}
}
