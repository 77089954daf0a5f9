package summary

import (
	"fmt"
	"strings"
	"testing"
	"time"

	"syncthing-audit/choice"
	"syncthing-audit/finding"
	"syncthing-audit/part"
)

// missing has a file missing on a device's disk.
func missing(folder *finding.Folder, name string, member int) {
	row := []*part.Name{file(1, 1), file(1, 1)}
	row[member].Disk = nil
	fails(folder, name, row, fmt.Sprint("StoreDiffers ", member+1))
}

// fresh has a file that no scan has seen on a device's disk.
func fresh(folder *finding.Folder, member int) {
	has := file(1, 1)
	has.Own = nil
	unwon(folder, "new", member, finding.Unscanned, has)
}

// Where an entry or the steps say what comes before a start, and there are other entries, that stands above all.
func TestWhatComesFirst(t *testing.T) {
	const told = "\nfirst, on server: do what the steps and the entries below say to do before Syncthing starts or scans there. As it starts, it scans all folders\n"
	gone := func(folder *finding.Folder, name string) {
		fails(folder, name, []*part.Name{with(with(file(2, 2), again), absent), file(1, 3)}, "RecordDiffers 2", "StoreDiffers 2")
	}
	rots := func(folder *finding.Folder, name string) {
		fails(folder, name, []*part.Name{file(1, 1), with(file(1, 1), rotten)}, "StoreDiffers 2")
	}
	for why, row := range map[string]struct {
		fill    func(*finding.Folder)
		isKnown bool
		told    bool
	}{
		"nothing is known":                   {func(folder *finding.Folder) { missing(folder, "a", 1); fresh(folder, 1) }, false, true},
		"nothing is known of one name":       {func(folder *finding.Folder) { missing(folder, "a", 1) }, false, false},
		"one is missing, and one is deleted": {func(folder *finding.Folder) { missing(folder, "a", 1); gone(folder, "b") }, true, true},
		"one is missing":                     {func(folder *finding.Folder) { missing(folder, "a", 1) }, true, false},
		"one is rotten, and one is deleted":  {func(folder *finding.Folder) { rots(folder, "a"); gone(folder, "b") }, true, true},
		"two are deleted":                    {func(folder *finding.Folder) { gone(folder, "a"); gone(folder, "b") }, true, false},
		"a mode":                             {func(folder *finding.Folder) { modesOn(folder, "a"); modesOn(folder, "b") }, false, true},
	} {
		answer := answerOf(2, row.fill)
		if row.isKnown {
			foretellAll(answer)
		}
		var written strings.Builder
		Of(answer).Print(&written, time.UTC, time.Time{})
		if strings.Contains(written.String(), told) != row.told {
			t.Errorf("%s:\n%s", why, written.String())
		}
	}
}

// Where names are missing that don't come back by themselves, whoever reads is to see first that the disk is mounted, once for each device.
func TestADiskThatMayNotBeMounted(t *testing.T) {
	gone := func(at *part.Name) { again(at); absent(at) }
	for _, example := range []struct {
		row     []*part.Name
		reasons []string
		isKnown bool
		told    string
	}{
		{[]*part.Name{file(1, 1), with(file(1, 1), absent)}, []string{"StoreDiffers 2"}, true, "first, on server: see that the disk of docs (Documents) is mounted before Syncthing starts or scans there: 2 of 1,200 names are missing"},
		{[]*part.Name{file(1, 1), with(file(1, 1), absent)}, []string{"StoreDiffers 2"}, false, "first, on server: see that the disk of docs (Documents) is mounted before Syncthing starts or scans there: 2 of 1,200 names are missing"},
		{[]*part.Name{with(file(1, 1), absent), with(file(1, 1), absent)}, []string{"StoreDiffers 1", "StoreDiffers 2"}, true, "first, on laptop: see that the disk of docs (Documents) is mounted"},
		{[]*part.Name{with(file(2, 2), gone), with(file(1, 1), absent)}, []string{"RecordDiffers 2", "StoreDiffers 2"}, true, ""},
	} {
		answer := answerOf(2, func(folder *finding.Folder) {
			fails(folder, "a", example.row, example.reasons...)
			fails(folder, "b", example.row, example.reasons...)
		})
		if example.isKnown {
			foretellAll(answer)
		}
		if text := printed(answer); !strings.Contains(text, example.told) || strings.Contains(text, "mounted") != (example.told != "") {
			t.Errorf("%v: %s", example.reasons, text)
		}
	}
}

// Who asked for some names alone doesn't know what a start does to the others.
func TestWhatIsNotKnownBeforeAStart(t *testing.T) {
	const told = "before a start, on laptop, server: as Syncthing starts, it scans all folders. What that does to names that weren't asked for isn't known: they may be missing there"
	for _, row := range []struct {
		asked     choice.Names
		isToStart bool
		live      *finding.Live
		told      bool
	}{
		{choice.Names{}, true, nil, false}, {choice.Names{Prefix: "a"}, true, nil, true}, {choice.Names{Slice: 3, Slices: 7}, true, nil, true},
		{choice.Names{Slice: 3, Slices: 7}, false, nil, false}, {choice.Names{Slice: 3, Slices: 7}, true, finding.NewLive(), false},
	} {
		answer := answerOf(2, func(folder *finding.Folder) {
			for _, member := range folder.Members {
				member.Head.Names = row.asked
			}
			folder.Live = row.live
			if row.isToStart {
				fresh(folder, 1)
			}
		})
		var written strings.Builder
		Of(answer).Print(&written, time.UTC, time.Time{})
		if strings.Contains(written.String(), told) != row.told {
			t.Errorf("%+v:\n%s", row.asked, written.String())
		}
	}
}

// What may lose bytes comes first, whatever its name, and below what is to be done before all else.
func TestWhatMayLoseBytesComesFirst(t *testing.T) {
	answer := answerOf(2, func(folder *finding.Folder) {
		missing(folder, "z", 1)
		fails(folder, "new", []*part.Name{file(1, 7), nil}, "RecordMissing 2", "StoreDiffers 2")
	})
	foretellAll(answer)
	text := printed(answer)
	first, lost, other := strings.Index(text, "first, on server"), strings.Index(text, " z (in docs"), strings.Index(text, " new (in docs")
	if first < 0 || first > lost || lost > other {
		t.Error(text)
	}
}

// Where no details of names were kept, they may be missing on the disk: that comes before a start, too.
func TestNamesWithoutDetailsComeFirst(t *testing.T) {
	for names, it := range map[int]string{1: "it by itself", mostAlone + 1: "some of them by themselves"} {
		text := printed(answerOf(2, func(folder *finding.Folder) {
			for place := 0; place < names; place++ {
				fails(folder, fmt.Sprint("a", place), nil, "StoreDiffers 2")
			}
			fresh(folder, 1)
		}))
		for _, has := range []string{"first, on server: do what the steps and the entries below", "to do: audit " + it} {
			if !strings.Contains(text, has) {
				t.Errorf("%d: %q isn't in %s", names, has, text)
			}
		}
	}
}

// What comes first stands in the JSON, too, with the devices and in the same words.
func TestWhatComesFirstInJSON(t *testing.T) {
	summary := Of(answerOf(3, func(folder *finding.Folder) {
		fails(folder, "a", []*part.Name{file(1, 1), with(file(1, 1), emptied), file(1, 1)}, "StoreDiffers 2")
		fails(folder, "b", []*part.Name{file(1, 1), with(file(1, 1), absent), file(1, 1)}, "StoreDiffers 2")
		fails(folder, "c", []*part.Name{file(1, 1), file(1, 1), with(file(1, 1), grown)}, "StoreDiffers 3")
		waits(folder, "d", 0, []int{1}, absent)
	}))
	told := []string{}
	for _, first := range summary.First {
		told = append(told, fmt.Sprint(first.Why, first.Devices, first.Names))
	}
	want := []string{fmt.Sprint(isUnscanned, []string{laptop}, 1), fmt.Sprint(isLonger, []string{phone}, 1), fmt.Sprint(isDamaged, []string{server}, 1),
		fmt.Sprint(isMissing, []string{server}, 1), fmt.Sprint(isMadeSafe, []string{server, phone}, 0)}
	if fmt.Sprint(told) != fmt.Sprint(want) {
		t.Errorf("%v, not %v", told, want)
	}
	var text, document strings.Builder
	summary.Print(&text, time.UTC, time.Time{})
	for _, first := range summary.First {
		if !strings.Contains(strings.Join(strings.Fields(text.String()), " "), first.Text) {
			t.Errorf("%q isn't in %s", first.Text, text.String())
		}
	}
	if err := summary.WriteJSON(&document); err != nil {
		t.Fatal(err)
	}
	if told, err := validate(t, document.String()); err != nil {
		t.Error(told)
	}
	if !strings.Contains(document.String(), `"damage":"emptied"`) {
		t.Error(document.String())
	}
}

// A device whose index went back comes first, once, with what a plain start there may do. One whose part was only made earlier doesn't.
func TestAnIndexThatWentBackComesFirst(t *testing.T) {
	earlier := func(wentBack bool, folder string) LeftOut {
		return LeftOut{Kind: part.Moment, Folder: folder, Device: "laptop", ID: laptop, Why: "change 9", WentBack: wentBack}
	}
	for why, row := range map[string]struct {
		earlier []LeftOut
		told    int
	}{
		"two folders went back": {[]LeftOut{earlier(true, "docs"), earlier(true, "pics")}, 1},
		"an earlier part":       {[]LeftOut{earlier(false, "docs")}, 0},
	} {
		answer := answerOf(2, func(folder *finding.Folder) {
			folder.Live = &finding.Live{OfParts: true, WentBack: row.told > 0, Moving: 1, Names: inMotion(1)}
		})
		answer.Earlier = row.earlier
		text := strings.Join(strings.Fields(printed(answer)), " ")
		if strings.Count(text, "first, on laptop: its index is older than what others know of it") != row.told || strings.Count(text, "start it there once by 'syncthing serve --reset-deltas'") != row.told {
			t.Errorf("%s: %s", why, text)
		}
		if next := map[bool]string{true: "not audited: do what stands above behind 'first'", false: "not audited: make the parts anew, and audit again"}[row.told > 0]; !strings.Contains(text, next) {
			t.Errorf("%s: %q isn't in %s", why, next, text)
		}
	}
}
