package summary

import (
	"strings"
	"testing"
	"time"

	"syncthing-audit/history"
)

// The faults of a name at a device are one line, with their reasons, since the first of them was found.
func TestANameIsToldOnceOfAHistory(t *testing.T) {
	day := func(number int) time.Time { return time.Date(2026, 1, number, 3, 0, 0, 0, time.UTC) }
	before := day(4)
	faults := []history.Told{{Folder: "docs", Name: "a", Device: "1", Reason: "StoreDiffers", First: day(3)}, {Folder: "docs", Name: "a", Device: "2", Reason: "StoreDiffers", First: day(2)},
		{Folder: "docs", Name: "a", Device: "1", Reason: "OwnNotWinner", First: day(1)}}
	var told strings.Builder
	printerOf(&told, map[string]string{"1": "laptop", "2": "nas"}).history(&Summary{Since: &history.Since{Before: &before, Lasting: history.List{Count: 3, First: faults}}})
	expected := `since the audit of 2026-01-04 03:00: 0 faults are new, 0 are mended, 3 last
  lasts: a in docs on laptop (StoreDiffers, OwnNotWinner), since 2026-01-01 03:00
  lasts: a in docs on nas (StoreDiffers), since 2026-01-02 03:00
`
	if told.String() != expected {
		t.Errorf("%s", told.String())
	}
}

// What changed under its time where it is recorded is told with what to save first, before any step of the answer.
func TestWhatChangedAndIsRecordedIsTold(t *testing.T) {
	day := func(number int) time.Time { return time.Date(2026, 1, number, 3, 0, 0, 0, time.UTC) }
	taken := []history.Changed{}
	for count := 0; count < mostNews+2; count++ {
		taken = append(taken, history.Changed{Folder: "docs", Name: "a b", Devices: []string{"1"}, Before: day(1), Since: day(2)})
	}
	for _, row := range []struct {
		since history.Since
		lines int
		told  string
	}{
		{history.Since{}, 1, "history: this is the first audit that it has\n"},
		{history.Since{Taken: taken[:1], Takes: 1, Directory: "/srv/a history"}, 3, "1 file has other bytes than before where it is recorded so, under one time and size, and devices that lack it take it. The answer below takes it for an edit\n" +
			"  'a b' in docs: its bytes changed between 2026-01-01 03:00 and 2026-01-02 03:00 on laptop, and are recorded there. If nobody changed it, first copy it elsewhere from a device that has the bytes before, " +
			"or from a backup or old versions in DIR (syncthing-audit find --history '/srv/a history' --folder docs 'a b' DIR), and take no step below that sends it from laptop. "},
		{history.Since{Taken: taken, Takes: 9}, mostNews + 3, "9 files have other bytes than before, each where it is recorded so, "},
	} {
		var told strings.Builder
		printerOf(&told, map[string]string{"1": "laptop", "2": "nas"}).history(&Summary{Since: &row.since})
		if !strings.HasPrefix(told.String(), row.told) || strings.Count(told.String(), "\n") != row.lines || (row.since.Takes > mostNews) != strings.Contains(told.String(), "  and 4 more (--json has 7 of them)\n") {
			t.Errorf("%s", told.String())
		}
	}
}

// It comes before all else that is to be done first, once for all such files.
func TestWhatChangedAndIsRecordedComesFirst(t *testing.T) {
	for takes, first := range map[int64]string{
		0: "", 1: "first, on all devices but 1, 2: copy elsewhere what the history names above (1 file), ", 7: "first, on all devices but 1, 2: copy elsewhere what the history names above (7 files), ",
	} {
		summary := &Summary{First: []First{{Why: isUnscanned}}}
		summary.Remember(&history.Since{Takes: takes, Taken: []history.Changed{{Devices: []string{"1"}}, {Devices: []string{"1", "2"}}}})
		if takes == 0 {
			if len(summary.First) != 1 || summary.Since == nil {
				t.Errorf("%+v", summary.First)
			}
			continue
		}
		if len(summary.First) != 2 || summary.First[0].Why != isChanged || summary.First[0].Names != takes || len(summary.First[0].Devices) != 2 || !strings.HasPrefix(summary.First[0].Text, first) {
			t.Errorf("%+v, not %s", summary.First, first)
		}
	}
	summary := &Summary{}
	if summary.Remember(nil); summary.Since != nil || summary.First != nil {
		t.Errorf("%+v", summary)
	}
}

// What an audit before found on a disk, and nobody read since, keeps its folder from being in step, and is told before what is new.
func TestWhatIsNotReadAgainCountsAsWrong(t *testing.T) {
	day := func(number int) time.Time { return time.Date(2026, 1, number, 3, 0, 0, 0, time.UTC) }
	before := day(4)
	unread := history.List{Count: 1, First: []history.Told{{Folder: "docs", Name: "a b", Device: "1", Reason: "StoreDiffers", First: day(2), Last: day(3)}}}
	since := &history.Since{Before: &before, Unread: unread, UnreadIn: map[string]int64{"docs": 1}}
	for _, row := range []struct {
		wrong   int64
		verdict string
	}{{0, AsFar}, {0, InStep}, {2, NotInStep}} {
		docs, pics := &Folder{ID: "docs", Verdict: row.verdict, Wrong: row.wrong}, &Folder{ID: "pics", Verdict: row.verdict, Wrong: row.wrong}
		summary := &Summary{Verdict: row.verdict, Folders: []*Folder{docs, pics}}
		summary.Remember(since)
		if summary.Verdict != NotInStep || docs.Verdict != NotInStep || docs.Wrong != row.wrong+1 || docs.Unread != 1 || pics.Verdict != row.verdict || pics.Wrong != row.wrong || pics.Unread != 0 {
			t.Errorf("%s: %+v, %+v", summary.Verdict, docs, pics)
		}
		if words := printerOf(&strings.Builder{}, nil).verdict(docs); !strings.HasPrefix(words, "NOT in step, ") || !strings.HasSuffix(words, " wrong, of which 1 was found so before and isn't read again") {
			t.Error(words)
		}
	}
	var told strings.Builder
	printerOf(&told, map[string]string{"1": "laptop"}).history(&Summary{Since: since})
	lines := strings.Split(told.String(), "\n")
	if len(lines) != 4 || !strings.HasPrefix(lines[0], "not read again: ") || lines[1] != "  'a b' in docs on laptop: found with other bytes on 2026-01-03 03:00, not read again since (StoreDiffers)" ||
		lines[2] != "since the audit of 2026-01-04 03:00: 0 faults are new, 0 are mended, 0 last, 1 wasn't read again" {
		t.Errorf("%s", told.String())
	}
}
