package history

import (
	"fmt"
	"strings"
	"testing"

	"syncthing-audit/choice"
	"syncthing-audit/part"
)

// said gives what a history says of files whose bytes changed under one time, and which of these faults are new.
func (s *Since) said() string {
	names := map[string]string{ids[0]: "1", ids[1]: "2"}
	told := []string{}
	for _, one := range s.Taken {
		on := ""
		for _, device := range one.Devices {
			on += names[device]
		}
		told = append(told, "recorded on "+on)
	}
	if s.Count > 0 {
		told = append(told, "everywhere")
	}
	for _, fault := range s.New.First {
		told = append(told, "new "+fault.Reason+names[fault.Device])
	}
	for _, fault := range s.Mended.First {
		told = append(told, "mended "+fault.Reason+names[fault.Device])
	}
	return strings.Join(told, ", ")
}

// Bytes that changed under one time and that their device records are told from the first audit on that sees them: other devices take them, and no
// comparison of devices says that they may be rot. Where the record has the bytes before, the audit itself tells the rot.
func TestBytesThatChangedAndAreRecorded(t *testing.T) {
	a, rot, taken := file{bytes: 'a', recorded: 'a'}, file{bytes: 'b', recorded: 'a'}, file{bytes: 'b', recorded: 'b'}
	edit := file{bytes: 'b', recorded: 'b', modified: 1}
	const of, everywhere = "BytesChangedAndRecorded", "BytesChangedEverywhere"
	for _, one := range []struct {
		why  string
		days [][2]file
		told []string
	}{
		{"rot that no scan has seen", [][2]file{{a, a}, {rot, a}}, []string{"", ""}},
		{"a scan takes it", [][2]file{{a, a}, {taken, a}, {taken, a}}, []string{"", "recorded on 1, new " + of + "1", "recorded on 1"}},
		{"a scan takes it later", [][2]file{{a, a}, {rot, a}, {taken, a}}, []string{"", "", "recorded on 1, new " + of + "1"}},
		{"on the second device", [][2]file{{a, a}, {a, taken}}, []string{"", "recorded on 2, new " + of + "2"}},
		{"it comes to all", [][2]file{{a, a}, {taken, a}, {taken, taken}, {taken, taken}}, []string{"", "recorded on 1, new " + of + "1", "everywhere, new " + everywhere, "everywhere"}},
		{"it comes to all in one night", [][2]file{{a, a}, {taken, taken}}, []string{"", "everywhere, new " + everywhere}},
		{"it is put back", [][2]file{{a, a}, {taken, a}, {a, a}}, []string{"", "recorded on 1, new " + of + "1", "mended " + of + "1"}},
		{"the disk has its bytes again, and the record not yet", [][2]file{{a, a}, {taken, a}, {{bytes: 'a', recorded: 'b'}, a}}, []string{"", "recorded on 1, new " + of + "1", "mended " + of + "1"}},
		{"the disk rots again under its record", [][2]file{{a, a}, {taken, a}, {{bytes: 'c', recorded: 'b'}, a}}, []string{"", "recorded on 1, new " + of + "1", "mended " + of + "1"}},
		{"both devices record others", [][2]file{{a, a}, {taken, {bytes: 'c', recorded: 'c'}}}, []string{"", "recorded on 21, new " + of + "2, new " + of + "1"}},
		{"an edit", [][2]file{{a, a}, {edit, a}}, []string{"", ""}},
		{"an edit after it", [][2]file{{a, a}, {taken, a}, {edit, a}}, []string{"", "recorded on 1, new " + of + "1", "mended " + of + "1"}},
		{"it wasn't read again", [][2]file{{a, a}, {taken, a}, {{unread: true, recorded: 'b'}, a}}, []string{"", "recorded on 1, new " + of + "1", "recorded on 1"}},
	} {
		history := opened(t)
		for day, files := range one.days {
			since := history.audit(t, day, []device{{"f": files[0]}, {"f": files[1]}}, choice.Names{}, "")
			if told := since.said(); told != one.told[day] {
				t.Errorf("%s, day %d: %q, not %q", one.why, day, told, one.told[day])
			}
			for _, changed := range since.Taken {
				if !changed.Before.Equal(night(0)) || changed.Hash != (part.Hash{'a'}).String() || changed.Size != 9 {
					t.Errorf("%s: %+v", one.why, changed)
				}
			}
		}
	}
}

// A file that is gone, or that gets another time, leaves nothing in the history of what was recorded.
func TestNothingIsLeftOfWhatWasRecorded(t *testing.T) {
	for name, next := range map[string]device{"gone": {}, "edited": {"f": {bytes: 'c', recorded: 'c', modified: 1}}, "put back": {"f": {bytes: 'a', recorded: 'a'}}} {
		history := opened(t)
		history.mustTake(t, 0, device{"f": {bytes: 'a', recorded: 'a'}})
		history.mustTake(t, 1, device{"f": {bytes: 'b', recorded: 'b'}})
		count := func() int {
			made := 0
			if err := history.each([]byte{ofTaken}, func(_, _ []byte) error { made++; return nil }); err != nil {
				t.Fatal(err)
			}
			return made
		}
		if before := count(); before != 1 {
			t.Fatalf("%d are recorded", before)
		}
		if history.mustTake(t, 2, next); count() != 0 {
			t.Errorf("%s: %d are left", name, count())
		}
	}
}

// Of very many files the first ones are listed, and all are counted.
func TestManyThatChangedAndAreRecorded(t *testing.T) {
	history, before, after := opened(t), device{}, device{}
	for number := 0; number < MostListed+3; number++ {
		name := fmt.Sprintf("%05d", number)
		before[name], after[name] = file{bytes: 'a', recorded: 'a'}, file{bytes: 'b', recorded: 'b'}
	}
	history.audit(t, 0, []device{before, before}, choice.Names{}, "")
	if since := history.audit(t, 1, []device{after, before}, choice.Names{}, ""); since.Takes != MostListed+3 || len(since.Taken) != MostListed || since.New.Count != MostListed+3 || since.Count != 0 {
		t.Errorf("%d, %d of them listed, %d new", since.Takes, len(since.Taken), since.New.Count)
	}
}
