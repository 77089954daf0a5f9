package summary

import (
	"strings"
	"testing"

	"syncthing-audit/finding"
	"syncthing-audit/part"
)

// waits has a name wait for a scan on a device, as it is after a change to what was in step.
func waits(folder *finding.Folder, name string, member int, have []int, change func(*part.Name)) {
	at := with(file(1, 1), change)
	if folder.Live == nil {
		folder.Live = finding.NewLive()
	}
	moved := finding.Moved{Device: ids[member], Why: []string{part.MovedUnscanned}, Waits: finding.KindOfWaiting(at), Recorded: finding.Recorded(at.Own), Found: finding.Found(at.Disk)}
	for _, other := range have {
		moved.Have = append(moved.Have, ids[other])
	}
	folder.Live.AddMoving(finding.Moving{Name: part.Bytes(name), At: []finding.Moved{moved}})
}

func noBytes(at *part.Name)  { at.Disk.Size = 0 }
func cutShort(at *part.Name) { at.Disk.Size = 1000 }
func edited(at *part.Name)   { at.Disk.ModifiedS++ }

// What no scan has seen is told of each device above all entries, with how it differs, and from where what is recorded can be copied.
func TestWhatNoScanHasSeenComesFirst(t *testing.T) {
	text := printed(answerOf(3, func(folder *finding.Folder) {
		fails(folder, "a", []*part.Name{file(1, 1), with(file(1, 1), rotten), file(1, 1)}, "StoreDiffers 2")
		waits(folder, "b", 1, []int{0, 2}, edited)
		waits(folder, "c", 1, []int{0}, noBytes)
		waits(folder, "d", 1, nil, absent)
		waits(folder, "e", 2, []int{0, 1}, cutShort)
		waits(folder, "f", 0, nil, func(at *part.Name) { at.Own = nil })
	}))
	plain := strings.Join(strings.Fields(text), " ")
	place := 0
	for _, told := range []string{
		"first, on server: before Syncthing starts or scans there, also for an entry below, see which names no scan has seen yet ('in motion in docs' below): " +
			"1 is MISSING, 1 is EMPTY, 1 is changed. A scan may delete on all devices what is missing there, and send to all what stands there. As Syncthing starts, " +
			"it scans all folders. So copy back first what is to stay as it is recorded, while Syncthing is stopped there. As recorded: 2 on laptop, 1 on phone, 1 on no audited device",
		"first, on phone: before Syncthing starts", "1 is CUT SHORT.", "As recorded: 1 on laptop, 1 on server.",
		"a (in docs",
		"in motion in docs: 5 names, not audited before a scan:",
		"d: server: missing on the disk; as recorded on no other audited device",
		"c: server: looks damaged: 300.0 kB recorded, 0 bytes on the disk: EMPTY (modified 2020-09-13 12:26:40 UTC); as recorded on laptop",
		"e: phone: looks damaged: 300.0 kB recorded, 1.0 kB on the disk: cut short under the recorded time (modified 2020-09-13 12:26:40 UTC); as recorded on laptop, server",
		"b: server: changed on the disk since the last scan (modified 2020-09-13 12:26:41 UTC); as recorded on laptop, phone",
		"f: laptop: on the disk, and no scan has seen it",
		"then: audit again after a scan",
	} {
		next := strings.Index(plain[place:], told)
		if next < 0 {
			t.Fatalf("%q doesn't stand behind %q: %s", told, plain[:place], text)
		}
		place += next + len(told)
	}
	if strings.Contains(text, "first, on laptop") {
		t.Errorf("what is new alone takes nothing away: %s", text)
	}
}

// A device that only receives sends nothing of what a scan finds.
func TestWhatWaitsOnADeviceThatReceives(t *testing.T) {
	text := printed(answerOf(2, func(folder *finding.Folder) {
		folder.Members[1].About.Kind = receiveOnly
		waits(folder, "a", 1, []int{0}, absent)
	}))
	if strings.Contains(text, "first, on") || !strings.Contains(text, "a: server: missing on the disk") {
		t.Error(text)
	}
}

// All that waits is counted, also what isn't told by name.
func TestMoreWaitsThanIsListed(t *testing.T) {
	text := printed(answerOf(2, func(folder *finding.Folder) {
		for place := 0; place < finding.MostListed; place++ {
			folder.Live = waitingMore(folder.Live)
		}
		waits(folder, "a", 1, []int{0}, absent)
	}))
	if !strings.Contains(text, "1 is MISSING") || !strings.Contains(text, "then: audit again") {
		t.Error(text)
	}
}

func waitingMore(live *finding.Live) *finding.Live {
	if live == nil {
		live = finding.NewLive()
	}
	live.AddMoving(finding.Moving{Name: "z", At: []finding.Moved{{Device: ids[0], Why: []string{part.MovedDisk}}}})
	return live
}

// The line of a folder says what no scan has seen, and doesn't call it firm.
func TestTheHeadTellsWhatNoScanHasSeen(t *testing.T) {
	text := printed(answerOf(3, func(folder *finding.Folder) {
		folder.Live = stillFor(10)
		waits(folder, "b", 1, []int{0, 2}, noBytes)
		waits(folder, "c", 2, []int{0, 1}, absent)
	}))
	const head = "docs (Documents): in step as far as audited, not known to be firm; still for 10 s: 1,204 names (4 deleted), 335.2 MB hashed on laptop, phone, server; " +
		"in motion: 2, NOT audited, of which no scan has seen: 1 is MISSING, 1 is EMPTY first, on"
	if !strings.HasPrefix(text, head) {
		t.Error(text)
	}
}

// Where a scan is under way, nothing that is done on that device holds back what it found: so what is to stay is saved on the others, above all else.
func TestAScanUnderWayComesFirst(t *testing.T) {
	for state, isFirst := range map[string]bool{"scanning": true, "syncing": true, part.RestIdle: false, part.RestPaused: false, part.RestStopped: false, part.RestUnasked: false} {
		text := printed(answerOf(2, func(folder *finding.Folder) {
			fails(folder, "a", []*part.Name{file(1, 1), with(file(1, 1), rotten)}, "StoreDiffers 2")
			for place := range folder.Members {
				folder.Members[place].Head.Look = &part.Look{}
				folder.Members[place].About.Rest = &part.Rest{State: part.RestIdle}
			}
			folder.Members[1].About.Rest = &part.Rest{State: state}
		}))
		place := strings.Index(text, "first, on all devices but server: copy to a place outside the folder what is to stay.")
		if (place >= 0) != isFirst || isFirst && place > strings.Index(text, "a (in docs") {
			t.Errorf("%s: %s", state, text)
		}
	}
}

// What is longer than recorded may be what was put back: a copy of it is kept before anything is copied over it.
func TestWhatIsLongerIsKept(t *testing.T) {
	longer := func(row *part.Name) { row.Disk.Size = 400000 }
	for _, row := range []struct {
		change func(*part.Name)
		kept   bool
	}{{longer, true}, {noBytes, false}} {
		text := printed(answerOf(2, func(folder *finding.Folder) { waits(folder, "b", 1, []int{0}, row.change) }))
		if strings.Contains(text, "Of what is longer, or isn't the recorded zeros, first keep a copy outside the folder: what was recorded may be the damage. As recorded: 1 on laptop") != row.kept {
			t.Error(text)
		}
	}
}
