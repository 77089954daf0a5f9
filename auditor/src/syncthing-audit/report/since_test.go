package report

import (
	"strings"
	"testing"
	"time"

	"github.com/syncthing/syncthing/lib/protocol"
	"syncthing-audit/finding"
	"syncthing-audit/history"
	"syncthing-audit/join"
	"syncthing-audit/part"
)

// at gives an hour of the day of these tests.
func at(hour int) time.Time { return time.Date(2026, 11, 29, hour, 0, 0, 0, time.UTC) }

// Beside an answer a history says when it was kept last, what is new, lasts, is mended and wasn't looked at, what changed under one time, what was read, and what
// wasn't. Of what isn't listed it says how much there is, and of nothing it says nothing.
func TestLinesOfAHistory(t *testing.T) {
	one, two := protocol.DeviceID{7: 1}.String(), protocol.DeviceID{7: 2}.String()
	before, oldest := at(1), at(2)
	list := func(count int64, reason string, devices ...string) history.List {
		made := history.List{Count: count}
		for _, device := range devices {
			made.First = append(made.First, history.Told{Folder: "docs", Name: "a b", Device: device, Reason: reason, First: at(3), Last: at(4)})
		}
		return made
	}
	since := &history.Since{Before: &before, New: list(1, "StoreDiffers", one), Lasting: list(3, "NotWinner", "", two), Mended: list(4, "X"), Unasked: list(0, "X"), Unread: list(3, "StoreUnclean", two), Deleted: list(2, "StoreDiffers", one),
		Emptied: []history.Emptied{{Folder: "docs", Files: 7, Of: 9, Since: at(1), Found: at(2)}},
		Changed: []history.Changed{{Folder: "docs", Name: "c", Devices: []string{one, two}, Before: at(4), Since: at(5)}}, Count: 3,
		Taken: []history.Changed{{Folder: "docs", Name: "d", Devices: []string{one, two}, Before: at(6), Since: at(7)}}, Takes: 2,
		Read:    []history.Read{{Folder: "docs", Device: one}, {Folder: "docs", Device: two, Files: 1, Bytes: 9, Oldest: at(8), OldestName: "e\xff"}},
		Waiting: []history.Waiting{{Folder: "docs", Device: one, Files: 5, Bytes: 6, Never: 4, Oldest: &oldest}, {Folder: "docs", Device: two, Files: 1, Bytes: 2, Never: 1}},
		Unkept:  "no room"}
	const expected = `since: 2026-11-29T01:00:00Z
gone: docs 7 of 9 files between 2026-11-29T01:00:00Z and 2026-11-29T02:00:00Z
changed everywhere: docs c between 2026-11-29T04:00:00Z and 2026-11-29T05:00:00Z
changed everywhere: 2 more
changed and recorded: docs d on ONE between 2026-11-29T06:00:00Z and 2026-11-29T07:00:00Z
changed and recorded: docs d on TWO between 2026-11-29T06:00:00Z and 2026-11-29T07:00:00Z
changed and recorded: 1 more
not read again: StoreUnclean docs a\x20b on TWO since 2026-11-29T03:00:00Z, found last 2026-11-29T04:00:00Z
not read again: 2 more
new: StoreDiffers docs a\x20b on ONE since 2026-11-29T03:00:00Z
lasts: NotWinner docs a\x20b since 2026-11-29T03:00:00Z
lasts: NotWinner docs a\x20b on TWO since 2026-11-29T03:00:00Z
lasts: 1 more
deleted since: StoreDiffers docs a\x20b on ONE since 2026-11-29T03:00:00Z
deleted since: 1 more
mended: 4 more
read: docs 1 files, 9 bytes on TWO, the oldest 2026-11-29T08:00:00Z e\xff
not read: docs 5 files, 6 bytes on ONE, 4 never, the oldest of the others 2026-11-29T02:00:00Z
not read: docs 1 files, 2 bytes on TWO, 1 never
not kept in the history: no room
`
	numbered := strings.NewReplacer("ONE", strings.TrimPrefix(onDevice(one), " on "), "TWO", strings.TrimPrefix(onDevice(two), " on ")).Replace(expected)
	if made := sinceOf(since); made != numbered || onDevice(one) == onDevice(two) {
		t.Errorf("%s\nnot\n%s", made, numbered)
	}
	for _, none := range []*history.Since{nil, {}, {Count: 1, Changed: since.Changed[:0:0], Takes: 0}} {
		due := ""
		if none != nil && none.Count > 0 {
			due = "changed everywhere: 1 more\n"
		}
		if made := sinceOf(none); made != due {
			t.Errorf("%q", made)
		}
	}
	since.Count, since.Takes, since.Lasting.Count, since.Deleted.Count, since.Unread.Count = 1, 1, 2, 1, 1 // all are listed
	if made := sinceOf(since); strings.Count(made, " more\n") != 1 {
		t.Error(made)
	}
}

func sinceOf(since *history.Since) string {
	var written strings.Builder
	Since(&written, since)
	return written.String()
}

// What has no verdict of its own is told all the same: what the disks fail to give, what was left out as a whole, what is of another moment, who wasn't asked, and
// whose part isn't signed.
func TestLinesOfWhatElseIsSo(t *testing.T) {
	folder := folderOf("docs", 2)
	folder.Damaged.Add(finding.Damaged{Name: "a b", At: []finding.DamagedAt{{Member: 0, Why: "it fails"}, {Member: 1, Why: "other bytes", IsRot: true}}})
	folder.Outside = finding.Count{}
	folder.Live = &finding.Live{OfParts: true, Moving: 1, Names: []finding.Moving{{Name: "m", At: []finding.Moved{{Device: folder.Members[1].Head.Device, Why: []string{"disk"}}}}}}
	answer := &finding.Answer{Folders: []*finding.Folder{folder},
		LeftOut:   []finding.Refusal{{Folder: "docs", Device: "nas", Why: "off"}, {Folder: "pics", Why: "odd"}, {Device: "phone:", Why: "no route"}, {Why: "all"}},
		Earlier:   []finding.Refusal{{Folder: "docs", Device: "1", Why: "change 9"}},
		Observers: []join.Observer{{Folder: "docs", Device: "OBS"}},
		Devices:   []finding.Device{{Number: 1, IsUnsigned: true}, {Number: 2}}}
	var written strings.Builder
	Rest(&written, answer)
	const expected = `still: docs by parts, in motion: 1 names
in motion: docs m on 2: disk
damaged: docs a\x20b on 1: it fails
differs: docs a\x20b on 2: other bytes
left out: folder docs, device nas: off
left out: folder pics: odd
left out: device phone:: no route
left out: : all
of another moment: folder docs, device 1: change 9
observer, not asked: folder docs, device OBS
not signed: the part of 1
`
	if written.String() != expected {
		t.Errorf("%s\nnot\n%s", written.String(), expected)
	}
	folder.Live = &finding.Live{}
	written.Reset()
	Rest(&written, &finding.Answer{Folders: []*finding.Folder{folder}})
	if !strings.HasPrefix(written.String(), "still: docs unknown, in motion: 0 names\ndamaged: ") {
		t.Error(written.String())
	}
}

// What one refusal leaves is told of one, and of several it is told how many of each kind, once for each.
func TestHowManyAreRefused(t *testing.T) {
	for told, answer := range map[string]*finding.Answer{
		"syncthing-audit: 1 refused; --leave-out special leaves it out\n": {Refusals: []finding.Refusal{{Kind: part.Special, Folder: "docs", Why: "odd"}}},
		"syncthing-audit: 2 refused; --leave-out special leaves them out\n": {Refusals: []finding.Refusal{{Kind: part.Special, Folder: "docs", Why: "odd"},
			{Kind: part.Special, Folder: "pics", Why: "odd"}}},
		"syncthing-audit: 1 refused; --leave-out ignored leaves it out\n": {Unlisted: map[string]int64{part.Ignored: 1, part.Special: 0}},
		"refused: folder docs: odd\n":                                     {Refusals: []finding.Refusal{{Folder: "docs", Why: "odd"}}},
		"":                                                                {},
	} {
		var written strings.Builder
		Refusals(&written, answer)
		if !strings.HasSuffix(written.String(), told) || told == "" && written.Len() > 0 || strings.Contains(written.String(), "--leave-out") != strings.Contains(told, "--leave-out") {
			t.Errorf("%q, not %q", written.String(), told)
		}
	}
}

// Just as many names of one kind as are told leave none to be counted.
func TestHowManyRefusalsAreTold(t *testing.T) {
	for count := mostAlike - 1; count < mostAlike+3; count++ {
		answer := &finding.Answer{}
		for number := 0; number < count; number++ {
			answer.Refusals = append(answer.Refusals, finding.Refusal{Kind: part.Special, Folder: "docs", Device: "nas", Name: string(rune('a' + number)), Why: "odd"})
		}
		var written strings.Builder
		Refusals(&written, answer)
		due := count
		if due > mostAlike {
			due = mostAlike
		}
		if names := strings.Count(written.String(), ", name "); names != due || strings.Contains(written.String(), " more of the kind ") != (count > mostAlike) {
			t.Errorf("%d names: %s", count, written.String())
		}
	}
}
