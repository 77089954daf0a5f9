package page

import (
	"errors"
	"fmt"
	"os"
	"path/filepath"
	"reflect"
	"strings"
	"testing"
	"time"

	"syncthing-audit/finding"
	"syncthing-audit/history"
	"syncthing-audit/summary"
)

// Of a text nothing is lost, and the lines of a terminal that go on are one line.
func TestBlocksOfAnAnswer(t *testing.T) {
	const text = "docs: NOT in step, 1 name is wrong\n\nto do in docs, from the top:\n  for a b:\n    1. on nas: copy it from laptop, as it is there\n    then all devices have what laptop has now\n\n" +
		"a  (in docs)\n  nas: other bytes\n    block 0 differs\n  if nothing is done: nothing is\n         sent, and so on.\nleft out: docs of phone: it is off\n       for a long time\n"
	expected := []Block{
		{"docs: NOT in step, 1 name is wrong", nil},
		{"to do in docs, from the top:", []Line{{1, "for a b:"}, {2, "1. on nas: copy it from laptop, as it is there"}, {2, "then all devices have what laptop has now"}}},
		{"a  (in docs)", []Line{{1, "nas: other bytes"}, {2, "block 0 differs"}, {1, "if nothing is done: nothing is sent, and so on."}}},
		{"left out: docs of phone: it is off for a long time", nil},
	}
	if made := blocksOf("a\n     b\n      c\n       d\n"); !reflect.DeepEqual(made, []Block{{"a", []Line{{3, "b"}, {3, "c d"}}}}) {
		t.Errorf("%+v", made)
	}
	if made := blocksOf(text); !reflect.DeepEqual(made, expected) {
		t.Errorf("%+v", made)
	}
	for _, text := range []string{"", "\n\n", "  a\n b\n", "          a\n          b", " a", text, text + text} {
		words := ""
		for _, block := range blocksOf(text) {
			words += block.Head + " "
			for _, line := range block.Lines {
				words += line.Text + " "
			}
		}
		if strings.Join(strings.Fields(words), " ") != strings.Join(strings.Fields(text), " ") {
			t.Errorf("%q has become %q", text, words)
		}
	}
}

// Each day up to today stands in the strip once, with the worst of its nights; one without a night says that.
func TestDaysOfTheStrip(t *testing.T) {
	night := func(day string, status int) Night {
		made, err := time.ParseInLocation("2006-01-02 15:04", day, at.Location())
		if err != nil {
			t.Fatal(err)
		}
		return Night{At: made.UTC(), Status: status, Wrong: 2, New: 1}
	}
	nights := []Night{night("2026-10-23 23:30", 0), night("2026-10-24 00:10", 1), night("2026-10-24 03:30", 0), night("2026-10-24 12:30", 6), night("2026-10-25 02:30", 6),
		night("2026-10-27 03:30", 0), night("2026-10-27 04:30", 2), night("2026-10-27 05:30", 1)}
	today := time.Date(2026, 10, 28, 0, 10, 0, 0, at.Location())
	told := []string{}
	for _, day := range daysOf(nights, today, 100) {
		told = append(told, day.Date.Format("2 ")+day.Kind+day.Sign+day.Words)
	}
	expected := "23 good✓in step, 2 wrong, 1 new|24 bad✗NOT in step, 2 wrong, 1 new|25 part○in step as far as audited, 2 wrong, 1 new|26 no·no audit|27 none!no answer, 2 wrong, 1 new|28 no·no audit"
	if strings.Join(told, "|") != expected {
		t.Errorf("%q", told)
	}
	for most := 1; most < 8; most++ {
		days := daysOf(nights, today, most)
		if due := most; len(days) != due && !(most > 6 && len(days) == 6) || !days[len(days)-1].Date.Equal(dateOf(today)) {
			t.Errorf("%d days of %d", len(days), most)
		}
	}
	if days := daysOf(nil, today, 9); len(days) != 0 {
		t.Error("days without a night")
	}
	long := daysOf([]Night{{At: today.AddDate(-2, 0, 0)}}, today, 800)
	for place := range long[1:] {
		if long[place+1].Date.Format(dayLayout) == long[place].Date.Format(dayLayout) || long[place+1].Date.Sub(long[place].Date) > 25*time.Hour {
			t.Fatalf("%v follows %v", long[place+1].Date, long[place].Date)
		}
	}
}

// Nights stay up to the last ones of a limit, and in their order.
func TestHowManyNightsAreKept(t *testing.T) {
	kept := &Kept{}
	for count := 1; count <= MostNights+3; count++ {
		kept.Add(Night{Wrong: int64(count)}, nil)
		first := count - MostNights + 1
		if first < 1 {
			first = 1
		}
		if nights := kept.Nights; len(nights) != count-first+1 || nights[0].Wrong != int64(first) || nights[len(nights)-1].Wrong != int64(count) {
			t.Fatalf("of %d nights there are %d, from %d to %d", count, len(nights), nights[0].Wrong, nights[len(nights)-1].Wrong)
		}
	}
}

// Of two nights of a day that went alike the later one stands in the strip, and of others the worse one.
func TestTwoNightsOfADay(t *testing.T) {
	worse := map[int]int{0: 0, 6: 1, 1: 2, 2: 3}
	for first := range worse {
		for second := range worse {
			days := daysOf([]Night{{At: at.Add(-time.Minute), Status: first, Wrong: 1}, {At: at, Status: second, Wrong: 2}}, at, 1)
			due := 1
			if worse[second] >= worse[first] {
				due = 2
			}
			if len(days) != 1 || !strings.HasSuffix(days[0].Words, fmt.Sprintf(", %d wrong", due)) {
				t.Errorf("%d and %d: %+v", first, second, days)
			}
		}
	}
}

// The head of a page says how the last night went and when, or of an answer without nights when that was.
func TestTheHeadOfAPage(t *testing.T) {
	for _, status := range []int{0, 1, 2, 6} {
		nights := []Night{{At: at.Add(-26 * time.Hour), Status: 0, Words: "before"}, {At: at.Add(-3 * time.Hour), Status: status, Words: "last"}}
		for _, last := range [][]Night{nights[1:], nights} {
			shown := view{}
			shown.addHead(&Kept{Nights: last, Answers: []Answer{{Status: 6, At: at}}}, at)
			if shown.Kind != signOf(status).Kind || shown.Sign != signOf(status).Sign || shown.Words != "last" || shown.When != "The last night was 2026-11-29 04:30 CET, 3 hours ago." || len(shown.Warnings) > 0 {
				t.Errorf("status %d: %+v", status, shown)
			}
		}
		shown := view{}
		shown.addHead(&Kept{Answers: []Answer{{Status: status, At: at.Add(-48 * time.Hour)}, {Status: 6, At: at}}}, at)
		if shown.sign != signOf(status) || shown.When != "Audited 2026-11-27 07:30 CET." {
			t.Errorf("an answer of status %d: %+v", status, shown)
		}
	}
}

// What is kept is read again. The last nights stay, and of an audit without an answer what it saw before.
func TestWhatNightsLeave(t *testing.T) {
	directory := t.TempDir()
	kept, err := Read(directory)
	if err != nil || len(kept.Nights)+len(kept.Answers) > 0 {
		t.Fatal(kept, err)
	}
	write := func(path, text string) error { return os.WriteFile(path, []byte(text), 0o600) }
	for count := 0; count < MostNights+5; count++ {
		kept.Add(Night{At: at.AddDate(0, 0, count).UTC(), Status: count % 7}, []Answer{{Audit: "run", At: at.UTC(), Seen: at.UTC(), Folders: []Folder{{ID: "docs"}}, Devices: []Device{{ID: "A"}}, LeftOut: []Left{{"a", "b"}}}})
	}
	kept.Add(Night{At: at.AddDate(3, 0, 0).UTC()}, []Answer{{Audit: "run", At: at.Add(time.Hour).UTC(), Text: "it is off"}, {Audit: "parts", At: at.UTC()}})
	if err := kept.Save(directory, write); err != nil {
		t.Fatal(err)
	}
	read, err := Read(directory)
	if err != nil || len(read.Nights) != MostNights || !read.Nights[MostNights-1].At.Equal(at.AddDate(3, 0, 0)) || !read.Nights[0].At.Equal(at.AddDate(0, 0, 6)) {
		t.Errorf("%v: %d nights from %v", err, len(read.Nights), read.Nights[0].At)
	}
	run, parts := read.Answers[0], read.Answers[1]
	if run.Text != "it is off" || !run.Seen.Equal(at) || len(run.Folders) != 1 || len(run.Devices) != 1 || len(run.LeftOut) != 1 || !parts.Seen.IsZero() || len(parts.Folders) > 0 {
		t.Errorf("%+v", read.Answers)
	}
	if err := os.WriteFile(filepath.Join(directory, nameOfKept), []byte("{"), 0o600); err != nil {
		t.Fatal(err)
	}
	if read, err := Read(directory); err == nil || read == nil || len(read.Nights) > 0 {
		t.Error("what is damaged is read")
	}
	if err := kept.Save(directory, func(string, string) error { return errors.New("full") }); err == nil || err.Error() != "full" {
		t.Error(err)
	}
	kept.Nights[0].At = time.Date(10000, 1, 1, 0, 0, 0, 0, time.UTC) // no time of JSON
	if err := kept.Save(directory, func(_, text string) error { t.Errorf("%q is written", text); return nil }); err == nil {
		t.Error("it is kept")
	}
}

// The grid has each folder on each device: what is wrong there, what was left out, and how old its readings are.
func TestTheGridOfAnAnswer(t *testing.T) {
	told := &summary.Summary{Devices: []summary.Device{{ID: "A", Name: "lap\x1b", Read: at}, {ID: "B", Name: "nas"}},
		LeftOut: []summary.LeftOut{{Folder: "docs", Device: "nas", Why: "away\n"}, {Folder: "docs", Device: "phone", Why: "off"}, {Device: "off:", Why: "no route"}, {Folder: "pics", Why: "odd"},
			{Folder: "firm", Why: "odd"}, {Folder: "loose", Device: "lap\x1b", Why: "late"}},
		Earlier: []summary.LeftOut{{Folder: "music", Device: "B", Why: "change 9"}},
		Since:   &history.Since{Read: []history.Read{{Folder: "docs", Device: "A", Files: 5, Bytes: 7, Oldest: at, OldestName: "a\x1b"}, {Folder: "pics", Device: "A", Files: 1}}},
		Folders: []*summary.Folder{
			{ID: "docs", Label: "Documents", Verdict: summary.NotInStep, Names: 9, Wrong: 4, Live: &finding.Live{Moving: 3}, Devices: []summary.Member{{Device: "A"}},
				Files:  []*summary.File{{Faults: []*summary.Fault{{Device: "A"}, {Device: "A"}}}, {}, {}},
				Groups: []*summary.Group{{Devices: []string{"A", "B"}, Names: 2}}},
			{ID: "music", Verdict: summary.AsFar, Devices: []summary.Member{{Device: "A"}, {Device: "B"}}},
			{ID: "firm", Verdict: summary.InStep, Firm: finding.IsFirm}, {ID: "loose", Verdict: summary.InStep}}}
	if wrong, listed := wrongAt(told.Folders[0]); fmt.Sprint(wrong) != "map[A:3 B:2]" || listed != 3 {
		t.Errorf("%v, %d names are listed", wrong, listed)
	}
	made := AnswerOf("run", at, 1, "text", told)
	docs := made.Folders[0]
	if made.Audit != "run" || made.Status != 1 || made.Text != "text" || !made.Seen.Equal(at) || docs.Called != "docs (Documents)" || docs.Moving != 3 || docs.Names != 9 || docs.Wrong != 4 {
		t.Errorf("%+v", made)
	}
	expected := []Cell{{Device: "A", Wrong: 3, IsLeast: true, Files: 5, Bytes: 7, Oldest: at, OldestName: `'[not-for-typing:a\x1b]'`}, {Device: "B", LeftOut: `away\x0a`}, {Device: "phone", LeftOut: "off"}}
	if fmt.Sprint(docs.Cells) != fmt.Sprint(expected) {
		t.Errorf("%+v", docs.Cells)
	}
	if music := made.Folders[1].Cells; len(music) != 2 || music[1].LeftOut != "change 9" || music[0].LeftOut != "" || music[0].IsLeast {
		t.Errorf("%+v", music)
	}
	if loose := made.Folders[3].Cells; len(loose) != 1 || loose[0].Device != "A" || len(made.Folders[2].Cells) != 0 {
		t.Errorf("%+v", loose)
	}
	verdicts := []string{}
	for _, folder := range made.Folders {
		verdicts = append(verdicts, folder.Verdict)
	}
	if strings.Join(verdicts, "|") != "NOT in step|in step as far as audited|in step and firm|in step" {
		t.Error(verdicts)
	}
	if fmt.Sprint(made.LeftOut) != `[{docs of nas away\x0a} {docs of phone off} {off: no route} {pics odd} {firm odd} {loose of lap\x1b late} {music of B change 9}]` {
		t.Errorf("%v", made.LeftOut)
	}
	if len(made.Devices) != 3 || made.Devices[0].Name != `lap\x1b` || made.Devices[2].ID != "phone" {
		t.Errorf("%+v", made.Devices)
	}
	if none := AnswerOf("run", at, 2, "why", nil); !none.Seen.IsZero() || none.Text != "why" || len(none.Folders) > 0 {
		t.Errorf("%+v", none)
	}
}

// A cell says what is so there, and never more.
func TestWhatACellSays(t *testing.T) {
	for _, one := range []struct {
		folder Folder
		cell   Cell
		words  string
		kind   string
	}{
		{Folder{Verdict: NotInStep, Wrong: 2}, Cell{Wrong: 1}, "1 name wrong here", "bad"},
		{Folder{Verdict: NotInStep, Wrong: 2}, Cell{Wrong: 2, IsLeast: true}, "at least 2 names wrong here", "bad"},
		{Folder{Verdict: NotInStep, Wrong: 2}, Cell{Wrong: 1, IsLeast: true}, "at least 1 name wrong here", "bad"},
		{Folder{Verdict: NotInStep, Wrong: 2}, Cell{IsLeast: true}, "nothing wrong here as far as listed", "part"},
		{Folder{Verdict: NotInStep, Wrong: 2}, Cell{}, "nothing wrong here", "good"},
		{Folder{Verdict: NotInStep, Wrong: 2}, Cell{Wrong: 2, LeftOut: "off"}, "left out: off", "part"},
		{Folder{Verdict: AsFar}, Cell{}, AsFar, "part"},
		{Folder{Verdict: InStep}, Cell{}, InStep, "good"},
		{Folder{Verdict: "in step and firm"}, Cell{}, "in step and firm", "good"},
	} {
		one.cell.Device = "A"
		one.folder.Cells = []Cell{one.cell}
		shown := one.folder.cell(columnView{id: "A", Called: "laptop"}, at)
		if shown.Words != one.words || shown.Kind != one.kind || shown.Device != "laptop" || len(shown.More) > 0 {
			t.Errorf("%+v: %+v", one, shown)
		}
		if shown := one.folder.cell(columnView{id: "B"}, at); shown.Words != "not shared here, or not asked" || shown.Kind != "no" {
			t.Errorf("%+v", shown)
		}
	}
	for moving, told := range []string{"3 names", "3 names, 1 name in motion", "3 names, 2 names in motion"} {
		if shown := (&Folder{Names: 3, Moving: int64(moving)}).view(nil, at); shown.Size != told {
			t.Errorf("%q", shown.Size)
		}
	}
	shown := (&Folder{Cells: []Cell{{Device: "A", Files: 1, Bytes: 61300000000, Oldest: at.AddDate(0, 0, -33), OldestName: "x"}}}).cell(columnView{id: "A"}, at)
	if fmt.Sprint(shown.More) != "[1 file, 61.3 GB read longest ago: 2026-10-27 07:30 CET, 33 days ago (x)]" {
		t.Errorf("%q", shown.More)
	}
	for spent, told := range map[time.Duration]string{time.Second: "just now", time.Minute: "1 minute ago", 119 * time.Minute: "119 minutes ago", 2 * time.Hour: "2 hours ago",
		47 * time.Hour: "47 hours ago", 48 * time.Hour: "2 days ago", -time.Hour: "just now"} {
		if made := ago(at.Add(-spent), at); made != told {
			t.Errorf("%v is %s, not %s", spent, made, told)
		}
	}
	for bytes, told := range map[int64]string{5: "5 bytes", 999999: "999999 bytes", 1e6: "1.0 MB", 1e9: "1.0 GB"} {
		if made := size(bytes); made != told {
			t.Errorf("%d is %s", bytes, made)
		}
	}
}
