package summary

import (
	"fmt"
	"strings"
	"testing"
	"time"

	"syncthing-audit/finding"
	"syncthing-audit/part"
)

// inMotion gives names that changed on the server.
func inMotion(count int) []finding.Moving {
	moving := []finding.Moving{}
	for next := 0; next < count; next++ {
		moving = append(moving, finding.Moving{Name: part.Bytes(fmt.Sprint("n", next)), At: []finding.Moved{{Device: server, Why: []string{part.MovedDisk}}}})
	}
	return moving
}

// stillFor gives what two looks say that were so long apart, in seconds, with names in motion.
func stillFor(seconds float64, names ...finding.Moving) *finding.Live {
	live := finding.NewLive()
	live.SetStill(time.Duration(seconds * 1e9))
	live.Moving, live.Names = int64(len(names)), append(live.Names, names...)
	return live
}

// What waits for a scan is never told to come to rest by itself.
func TestAdviceForWhatWaitsForAScan(t *testing.T) {
	for _, row := range []struct {
		moving, waits int64
		advice        string
	}{
		{1, 0, "audit again"},
		{1, 1, "audit again after a scan by Syncthing, as with --rescan"},
		{2, 1, "audit again, and for what waits for a scan after one by Syncthing, as with --rescan"},
		{2, 2, "audit again after a scan by Syncthing, as with --rescan"},
	} {
		if told := toRest(&finding.Live{Moving: row.moving, Waits: row.waits}); told != row.advice {
			t.Errorf("%d of %d: %s", row.waits, row.moving, told)
		}
	}
}

// A device that fails to receive a name, as on a full disk, begins again and again: so an audit alone is no way to come to rest.
func TestAdviceForWhatIsBeingReceived(t *testing.T) {
	for why, told := range map[string]bool{part.MovedReceiving: true, part.MovedDisk: false} {
		live := stillFor(0, finding.Moving{Name: "c", At: []finding.Moved{{Device: server, Why: []string{part.MovedRecord, why}}}})
		if advice := toRest(live); strings.Contains(advice, "see whether the disk is full there, and whether Syncthing's page lists 'Failed Items'") != told || !strings.HasPrefix(advice, "audit again") {
			t.Errorf("%s: %s", why, advice)
		}
	}
}

// waitingAlone gives a name that waits for a scan, and of which no details were kept.
func waitingAlone() *finding.Live {
	live := stillFor(0, finding.Moving{Name: "c", At: []finding.Moved{{Device: server, Why: []string{part.MovedUnscanned}}}})
	live.Waits = 1
	return live
}

// moreThanListed gives twelve names in motion, of which eleven are listed.
func moreThanListed() *finding.Live {
	live := stillFor(0, inMotion(11)...)
	live.Moving = 12
	return live
}

// textsOfRunningDevices are what a person reads of devices that ran.
var textsOfRunningDevices = []struct {
	why  string
	live *finding.Live
	text string
}{
	{"all still", stillFor(312.9),
		`docs (Documents): in step and firm; still for 312 s: 1,204 names (4 deleted), 335.2 MB hashed on laptop, server; in motion: 0

` + strings.TrimPrefix(lastLine, "\n")},
	{"two in motion", stillFor(1312,
		finding.Moving{Name: "a b", At: []finding.Moved{{Device: laptop, Why: []string{part.MovedRecord, part.MovedDisk}}, {Device: server, Why: []string{part.MovedViews}}}},
		finding.Moving{Name: "c", At: []finding.Moved{{Device: server, Why: []string{part.MovedReceiving}}}}),
		`docs (Documents): in step and firm as far as audited; still for 1,312 s: 1,204 names (4 deleted), 335.2 MB hashed on laptop, server; in motion: 2

in motion in docs: 2 names, not audited: audit again. If one is still being received then, see whether the disk is full there, and whether Syncthing's page lists 'Failed Items'
  'a b': laptop: its record changed, what stands on the disk changed; server: what it knows of others' records changed
  c: server: it is being received
` + strings.TrimPrefix(lastLine, "\n")},
	{"one waits for a scan", waitingAlone(),
		`docs (Documents): in step and firm as far as audited; still for 0 s: 1,204 names (4 deleted), 335.2 MB hashed on laptop, server; in motion: 1

in motion in docs: 1 name, not audited
  before a scan: it may delete on all devices what is missing, and send to all what stands there.
         See that the disk is mounted, and copy back first what is to stay.
  c: server: the disk isn't as recorded: it waits for a scan by Syncthing
  then: audit again after a scan by Syncthing, as with --rescan
` + strings.TrimPrefix(lastLine, "\n")},
	{"more than are told", moreThanListed(),
		`docs (Documents): in step and firm as far as audited; still for 0 s: 1,204 names (4 deleted), 335.2 MB hashed on laptop, server; in motion: 12

in motion in docs: 12 names, not audited: audit again
` + firstTen + `  and 2 more (--json has 11)
` + strings.TrimPrefix(lastLine, "\n")},
	{"clocks that differ, and what wasn't heard of", &finding.Live{Names: []finding.Moving{}, Unheard: []finding.Unheard{{Device: server, Of: laptop, Names: 3}}},
		`docs (Documents): in step and firm as far as audited; still: 1,204 names (4 deleted), 335.2 MB hashed on laptop, server; in motion: 0

for how long docs was still isn't known: the devices' clocks differ by more than that
not heard of in docs: what laptop recorded last of 3 still names hasn't reached server: it is on its way, or the two aren't connected
` + strings.TrimPrefix(lastLine, "\n")},
}

// What was still, for how long, and what was in motion: it is never called in step.
func TestTextOfRunningDevices(t *testing.T) {
	var documents strings.Builder
	for _, row := range textsOfRunningDevices {
		var written strings.Builder
		answer := answerOf(2, func(folder *finding.Folder) { folder.Live = row.live })
		Of(answer).Print(&written, time.UTC, time.Time{})
		if written.String() != row.text {
			t.Errorf("%s:\n%s\nnot\n%s", row.why, written.String(), row.text)
		}
		if err := Of(answer).WriteJSON(&documents); err != nil {
			t.Fatal(err)
		}
	}
	if told, err := validate(t, documents.String()); err != nil {
		t.Error(told)
	}
}

const firstTen = `  n0: server: what stands on the disk changed
  n1: server: what stands on the disk changed
  n2: server: what stands on the disk changed
  n3: server: what stands on the disk changed
  n4: server: what stands on the disk changed
  n5: server: what stands on the disk changed
  n6: server: what stands on the disk changed
  n7: server: what stands on the disk changed
  n8: server: what stands on the disk changed
  n9: server: what stands on the disk changed
`
