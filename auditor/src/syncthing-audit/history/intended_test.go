package history

import (
	"errors"
	"testing"
	"time"
)

// otherwise gives the same files with other bytes.
func (d device) otherwise() device {
	made := device{}
	for name, of := range d {
		made[name] = file{bytes: of.bytes + 100, recorded: of.bytes + 100}
	}
	return made
}

// What somebody wanted to go isn't told any more, wherever it goes later; and whatever else goes is told. Each row has what both devices have, day by day; a device
// without files isn't asked. Behind some days it is said that what an audit found was wanted.
func TestWhatWasWantedIsNotToldAgain(t *testing.T) {
	all, none := files(0, 40), device{}
	for _, row := range []struct {
		why    string
		days   [][2]device
		wanted map[int]int // behind which day the finding of which
		told   []string
	}{
		{"nobody says so", [][2]device{{all, all}, {none, none}, {none, none}}, nil, []string{"", "40 of 40 since 1, found 2, new", "40 of 40 since 1, found 2"}},
		{"all", [][2]device{{all, all}, {none, none}, {none, none}, {none, none}}, map[int]int{1: 1}, []string{"", "40 of 40 since 1, found 2, new", "", ""}},
		{"more go later", [][2]device{{all, all}, {files(20, 40), files(20, 40)}, {files(20, 40), files(20, 40)}, {none, none}}, map[int]int{1: 1},
			[]string{"", "20 of 40 since 1, found 2, new", "", "20 of 20 since 3, found 4, new"}},
		{"more went before it was said", [][2]device{{all, all}, {files(20, 40), files(20, 40)}, {none, none}, {none, none}}, map[int]int{2: 1},
			[]string{"", "20 of 40 since 1, found 2, new", "20 of 40 since 1, found 2; 20 of 20 since 2, found 3, new", "20 of 20 since 2, found 3"}},
		{"more went before the next audit", [][2]device{{all, all}, {files(20, 40), files(20, 40)}, {none, none}}, map[int]int{1: 1},
			[]string{"", "20 of 40 since 1, found 2, new", "20 of 20 since 2, found 3, new"}},
		{"a device that was off deletes them, too", [][2]device{{all, all}, {none, nil}, {none, none}, {none, none}}, map[int]int{1: 1},
			[]string{"", "40 of 40 since 1, found 2, new, 40 on 1", "", ""}},
		{"it deletes other bytes", [][2]device{{all, all.otherwise()}, {none, nil}, {none, none}, {none, none}}, map[int]int{1: 1},
			[]string{"", "40 of 40 since 1, found 2, new, 40 on 1", "40 of 40 since 2, found 3, new", "40 of 40 since 2, found 3"}},
		{"they are back, and go again", [][2]device{{all, all}, {none, none}, {all, all}, {none, none}}, map[int]int{1: 1},
			[]string{"", "40 of 40 since 1, found 2, new", "", "40 of 40 since 3, found 4, new"}},
		{"they are back on one device, and go again", [][2]device{{all, all}, {none, none}, {all, none}, {none, none}}, map[int]int{1: 1},
			[]string{"", "40 of 40 since 1, found 2, new", "", "40 of 40 since 3, found 4, new"}},
	} {
		history := opened(t)
		for day, both := range row.days {
			devices := map[int]device{}
			for place, device := range both {
				if device != nil {
					devices[place] = device
				}
			}
			if told := history.auditOf(t, day, devices, nil).emptied(); told != row.told[day] {
				t.Errorf("%s, day %d: %q, not %q", row.why, day, told, row.told[day])
			}
			if of, is := row.wanted[day]; is {
				if emptied, err := history.Intend("docs", night(of)); err != nil || !emptied.Found.Equal(night(of)) || emptied.Files != emptied.Of && emptied.Files != 20 || len(emptied.First) != int(emptied.Files) {
					t.Errorf("%s, day %d: %+v, %v", row.why, day, emptied, err)
				}
			}
		}
	}
}

// What an audit didn't find can't be said to be wanted, nor can anything twice.
func TestWhatCannotBeWanted(t *testing.T) {
	history := opened(t)
	history.auditOf(t, 0, map[int]device{0: files(0, 12)}, nil)
	history.auditOf(t, 1, map[int]device{0: {}}, nil)
	for why, row := range map[string]struct {
		folder string
		at     time.Time
	}{"another folder": {"other", night(1)}, "another folder that begins so": {"doc", night(1)}, "the audit before": {"docs", night(0)}, "a second later": {"docs", night(1).Add(time.Second)}, "no time": {"docs", time.Time{}}} {
		if _, err := history.Intend(row.folder, row.at); !errors.Is(err, ErrNotEmptied) {
			t.Errorf("%s: %v", why, err)
		}
	}
	if _, err := history.Intend("docs", night(1).Truncate(time.Second)); err != nil {
		t.Error(err)
	}
	if _, err := history.Intend("docs", night(1)); !errors.Is(err, ErrNotEmptied) {
		t.Errorf("twice: %v", err)
	}
}
