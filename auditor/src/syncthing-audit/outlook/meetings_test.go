package outlook

import (
	"testing"

	"syncthing-audit/join"
)

// Three devices have an edit each that no scan has seen: of the two conflict copies one may take the other's name, so both are told, and saved.
func TestCopiesThatMeet(t *testing.T) {
	row := calm("a", 3, 1)
	for member, at := range row.At {
		cut(at.Disk, int64(7+member), int64(100-member))
	}
	told := outlookOf(folderOf("send-receive", "send-receive", "send-receive"), []*join.Row{row})
	if name := told.Listed[0]; name.Fate != Lost || len(name.Loses) != 2 || len(name.Ends) < 2 || shown(told.Plans) != "a: save on 1, save on 2" {
		t.Errorf("%v %+v %s", countsOf(told), name.Loses, shown(told.Plans))
	}
}

// A single copy meets none, and neither do two of the same bytes.
func TestCopiesThatDoNotMeet(t *testing.T) {
	for _, sizes := range [][]int64{{7, 8, 5}, {7, 8, 8}} {
		row := calm("a", 3, 1)
		for member, at := range row.At {
			if sizes[member] != 5 {
				cut(at.Disk, sizes[member], int64(100-member))
			}
		}
		if told := outlookOf(folderOf("send-receive", "send-receive", "send-receive"), []*join.Row{row}); told.Lost != 0 {
			t.Errorf("%v: %v %+v", sizes, countsOf(told), told.Listed)
		}
	}
}

// A plan after which several things may stand as conflict copies saves what may go by that, and doesn't say that it is kept.
func TestPlansSaveCopiesThatMeet(t *testing.T) {
	row := calm("a", 3, 1)
	changedAt(row, 2, 70, true)
	cut(row.At[1].Disk, 0, 0)
	told := outlookOf(folderOf("send-receive", "send-receive", "receive-only"), []*join.Row{row})
	if text := shown(told.Plans); text != "a: save on 2, touch on 0; then what 0 have, and copies of 1" {
		t.Error(text)
	}
}
