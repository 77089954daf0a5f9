package history

import (
	"encoding/json"
	"fmt"
	"strings"
	"testing"

	"syncthing-audit/choice"
	"syncthing-audit/part"
)

// A fault of a file that is deleted by now isn't mended: what it had isn't there again.
func TestWhatIsDeletedIsNotMended(t *testing.T) {
	good := device{"a": {bytes: 'a'}, "b": {bytes: 'b'}}
	history := opened(t)
	history.audit(t, 0, []device{good, good}, choice.Names{}, "a")
	since := history.audit(t, 1, []device{{"b": {bytes: 'b'}}, {"b": {bytes: 'b'}}}, choice.Names{}, "")
	told, _ := json.Marshal(since)
	if since.Mended.Count != 0 || !strings.Contains(string(told), `"deleted":{"count":1,`) {
		t.Errorf("%s", told)
	}
}

// files gives a device with so many files, from the first number on, each with bytes of its own.
func files(from, to int) device {
	made := device{}
	for number := from; number < to; number++ {
		made[fmt.Sprintf("f%02d", number)] = file{bytes: byte(1 + number), recorded: byte(1 + number)}
	}
	return made
}

// moved gives the same files under other names.
func (d device) moved() device {
	made := device{}
	for name, file := range d {
		made["to/"+name] = file
	}
	return made
}

// emptied says what is told of files that are gone.
func (s *Since) emptied() string {
	told := []string{}
	for _, emptied := range s.Emptied {
		is := fmt.Sprintf("%d of %d since %s, found %s", emptied.Files, emptied.Of, emptied.Since.Format("2"), emptied.Found.Format("2"))
		if emptied.IsNew {
			is += ", new"
		}
		for _, holder := range emptied.Held {
			is += fmt.Sprintf(", %d on %s", holder.Files, holder.Read.Format("2"))
		}
		told = append(told, is)
	}
	return strings.Join(told, "; ")
}

// Where most files of a folder go from one audit to the next it is told, for a week, until they are back. Each row has what both devices have, day by day;
// a device without files isn't asked.
func TestAnEmptiedFolder(t *testing.T) {
	all, none := files(0, 12), device{}
	for _, row := range []struct {
		why  string
		days [][2]device
		told []string
	}{
		{"nothing goes", [][2]device{{all, all}, {all, all}}, []string{"", ""}},
		{"the first audit", [][2]device{{none, none}}, []string{""}},
		{"all go", [][2]device{{all, all}, {none, none}, {none, none}}, []string{"", "12 of 12 since 1, found 2, new", "12 of 12 since 1, found 2"}},
		{"all go, and are back", [][2]device{{all, all}, {none, none}, {all, all}, {all, all}}, []string{"", "12 of 12 since 1, found 2, new", "", ""}},
		{"half of them go", [][2]device{{all, all}, {files(6, 12), files(6, 12)}}, []string{"", "6 of 12 since 1, found 2, new"}},
		{"fewer go", [][2]device{{all, all}, {files(5, 12), files(5, 12)}}, []string{"", ""}},
		{"four of six go", [][2]device{{files(0, 6), files(0, 6)}, {files(4, 6), files(4, 6)}}, []string{"", ""}},
		{"all two go", [][2]device{{files(0, 2), files(0, 2)}, {none, none}}, []string{"", "2 of 2 since 1, found 2, new"}},
		{"all go, and others come", [][2]device{{all, all}, {files(20, 40), files(20, 40)}}, []string{"", "12 of 12 since 1, found 2, new"}},
		{"all are renamed", [][2]device{{all, all}, {all.moved(), all.moved()}}, []string{"", ""}},
		{"one device is behind", [][2]device{{all, all}, {none, all}, {none, none}}, []string{"", "", "12 of 12 since 2, found 3, new"}},
		{"one device is off", [][2]device{{all, all}, {none, nil}, {none, none}}, []string{"", "12 of 12 since 1, found 2, new, 12 on 1", "12 of 12 since 2, found 3, new"}},
		{"day by day", [][2]device{{all, all}, {files(4, 12), files(4, 12)}, {files(8, 12), files(8, 12)}, {files(9, 12), files(9, 12)}}, []string{"", "", "", ""}},
	} {
		history := opened(t)
		for day, both := range row.days {
			devices := map[int]device{}
			for place, device := range both {
				if device != nil {
					devices[place] = device
				}
			}
			if told := history.auditOf(t, day, devices, nil).emptied(); told != row.told[day] {
				t.Errorf("%s, day %d: %q, not %q", row.why, day, told, row.told[day])
			}
		}
	}
}

// It is told for a week.
func TestAnEmptiedFolderIsToldForAWeek(t *testing.T) {
	history := opened(t)
	history.auditOf(t, 0, map[int]device{0: files(0, 12)}, nil)
	for day := 1; day < 10; day++ {
		if told := history.auditOf(t, day, map[int]device{0: {}}, nil).emptied(); (told != "") != (day < 8) {
			t.Errorf("day %d: %q", day, told)
		}
	}
}

// A fault whose file is deleted says who had which bytes: a device that isn't asked has them still.
func TestWhoHadWhatIsDeleted(t *testing.T) {
	history, found := opened(t), []Fault{{Folder: "docs", Name: "f", Device: part.Number(ids[0]), Cause: "StoreDiffers"}}
	good, rotten := device{"f": {bytes: 'a', recorded: 'a'}}, device{"f": {bytes: 'b', recorded: 'a'}}
	history.auditOf(t, 0, map[int]device{0: rotten, 1: good}, found)
	since := history.auditOf(t, 1, map[int]device{0: {}}, nil)
	if since.counts() != [5]int64{} || since.Deleted.Count != 1 {
		t.Fatalf("%+v", since)
	}
	held := since.Deleted.First[0].Held
	if len(held) != 2 || held[1].Device != ids[0] || !held[1].IsGone || held[1].IsOff || !strings.HasPrefix(held[1].Hash, "62") || held[0].IsGone || !held[0].IsOff ||
		!strings.HasPrefix(held[0].Hash, "61") || !held[0].Read.Equal(night(0)) {
		t.Errorf("%+v", held)
	}
}

// Bytes are had by devices that aren't asked now and have them by what was read last; those of a file that is gone everywhere can still be looked for.
func TestWhoHasBytesThatAreWanted(t *testing.T) {
	good, rotten := device{"f": {bytes: 'a', recorded: 'a'}}, device{"f": {bytes: 'b', recorded: 'a'}}
	content := func(of byte) part.Content { return part.Content{Size: 9, BlockSize: 131072, Hash: part.Hash{of}} }
	for _, row := range []struct {
		why  string
		days []map[int]device
		had  string
	}{
		{"a device is off", []map[int]device{{0: rotten, 1: good}, {0: rotten}}, ids[1]},
		{"it is asked", []map[int]device{{0: rotten, 1: good}, {0: rotten, 1: good}}, ""},
		{"it had other bytes", []map[int]device{{0: good, 1: rotten}, {0: rotten}}, ""},
		{"it deleted the file before it was off", []map[int]device{{0: rotten, 1: good}, {0: rotten, 1: {}}, {0: rotten}}, ""},
	} {
		history, since := opened(t), (*Since)(nil)
		for day, devices := range row.days {
			since = history.auditOf(t, day, devices, nil)
		}
		had := ""
		for _, held := range since.Had("docs", "f", content('a')) {
			had += held.Device
		}
		if had != row.had || len(since.Had("docs", "other", content('a'))) > 0 {
			t.Errorf("%s: %q, not %q", row.why, had, row.had)
		}
	}
	history := opened(t)
	history.mustTake(t, 0, good, good)
	history.mustTake(t, 1, device{}, device{})
	if found, err := history.Wanted("docs", "f"); err != nil || len(found) != 1 || found[0].Content != content('a') {
		t.Errorf("%+v, %v", found, err)
	}
}
