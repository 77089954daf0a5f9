package summary

import (
	"encoding/json"
	"strings"
	"testing"
	"time"

	"syncthing-audit/finding"
	"syncthing-audit/history"
	"syncthing-audit/part"
)

// A folder from which most files went comes before all else, with what to save: first what a device that isn't asked may delete as it starts.
func TestAnEmptiedFolderComesFirst(t *testing.T) {
	day := func(number int) time.Time { return time.Date(2026, 1, number, 3, 0, 0, 0, time.UTC) }
	emptied := history.Emptied{Folder: "docs", Since: day(1), Found: day(2), Files: 7, Of: 9, First: []part.Bytes{"a b", "c", "d", "e", "f", "g", "h"},
		Held: []history.Holder{{Device: "NAS-ID", Files: 6, Read: day(1)}}}
	summary := &Summary{Folders: []*Folder{{ID: "docs", Verdict: InStep, off: []part.Sharing{{Device: "NAS-ID", Name: "nas"}}}}, Since: &history.Since{Before: &emptied.Since, Emptied: []history.Emptied{emptied}}}
	var told strings.Builder
	p := printerOf(&told, nil)
	p.emptied(summary)
	text := strings.Join(strings.Fields(told.String()), " ")
	last := 0
	for _, due := range []string{"GONE: 7 of 9 files in docs went from all devices that were asked after 2026-01-01 03:00, as the audit of 2026-01-02 03:00 found: 'a b', c, d, e, f and 2 more",
		"to do: nas had 6 of them when it was read on 2026-01-01 03:00, and isn't asked now: don't start Syncthing there", "to do: if nobody wanted that: stop Syncthing on all devices of the folder",
		"It is told until 2026-01-09 03:00. if it was wanted: syncthing-audit wanted --history DIR --folder docs 2026-01-02T03:00:00Z"} {
		at := strings.Index(text, due)
		if at < last {
			t.Errorf("%q isn't there, or in another order: %s", due, text)
		}
		last = at
	}
	if summary.Since.Directory = "/a b"; summary.CommandOfWanted(emptied) != "syncthing-audit wanted --history '/a b' --folder docs 2026-01-02T03:00:00Z" {
		t.Error(summary.CommandOfWanted(emptied))
	}
	const wanted = "7 of 9 files in docs went from all devices that were asked after 2026-01-01 03:00, as the audit of 2026-01-02 03:00 found: 'a b', c, d, e, f and 2 more. It was wanted, so it isn't told any more. What goes later is told"
	if words := WordsOfIntended(&emptied, time.UTC); words != wanted {
		t.Error(words)
	}
	told.Reset()
	if p.emptied(&Summary{}); told.Len() > 0 {
		t.Error(told.String())
	}
}

// A fault whose name is deleted says which device had which bytes.
func TestWhoHadWhatIsDeletedIsTold(t *testing.T) {
	at := time.Date(2026, 1, 4, 3, 0, 0, 0, time.UTC)
	summary := &Summary{Devices: []Device{{ID: "A", Name: "server"}}, Folders: []*Folder{{ID: "docs", off: []part.Sharing{{Device: "B", Name: "nas"}}}}}
	told := &history.Told{Folder: "docs", Name: "a", Held: []history.Held{{Device: "A", Read: at, Size: 9, Hash: "0123456789", IsGone: true}, {Device: "B", Read: at, Size: 9, Hash: "9876543210", IsOff: true}}}
	const due = "; read last: server had 9 bytes on 2026-01-04 03:00 (SHA-256 of its blocks 01234567..), nas had 9 bytes on 2026-01-04 03:00 (SHA-256 of its blocks 98765432..), and isn't asked now"
	if words := summary.WordsOfHeld(told, time.UTC); words != due {
		t.Error(words)
	}
	if words := summary.WordsOfHeld(&history.Told{}, time.UTC); words != "" {
		t.Error(words)
	}
}

// Where no audited device has what is recorded, devices that aren't asked are named; and first those of which the history knows that they had it.
func TestADeviceThatIsNotAskedIsASource(t *testing.T) {
	at := time.Date(2026, 1, 4, 3, 0, 0, 0, time.Local)
	made := func() *Summary {
		return Of(answerOf(1, func(folder *finding.Folder) {
			folder.Members[0].About.Sharing = []part.Sharing{{Device: "NAS-ID", Name: "nas"}, {Device: "CIPHER", Name: "cipher", Encrypted: true}}
			fails(folder, "a", []*part.Name{with(file(1, 7), rotten)}, "StoreDiffers 1")
		}))
	}
	summary := made()
	advice := summary.Folders[0].Files[0].Advice
	if len(advice) == 0 || !strings.HasPrefix(advice[0], "look among old versions and backups: ") || !strings.HasSuffix(advice[0], ". nas isn't asked, and may have it") {
		t.Errorf("%q", advice)
	}
	summary.Remember(&history.Since{Had: func(folder, name string, content part.Content) []history.Held {
		if folder != "docs" || name != "a" || content.Hash[0] != 7 {
			t.Error(folder, name, content)
		}
		return []history.Held{{Device: "NAS-ID", Read: at}}
	}})
	told := summary.Folders[0].Files[0].Advice
	if len(told) != len(advice)+1 || told[0] != "look on nas first, before Syncthing starts there: nas had what is recorded when it was read on 2026-01-04 03:00, and isn't asked now. Copy it elsewhere from there" {
		t.Errorf("%q", told)
	}
	if text, err := json.Marshal(&history.Since{Had: func(string, string, part.Content) []history.Held { return nil }}); err != nil || strings.Contains(string(text), "Had") {
		t.Errorf("%s, %v", text, err)
	}
}
