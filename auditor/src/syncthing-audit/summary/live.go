package summary

import (
	"fmt"
	"strings"

	"golang.org/x/exp/slices"
	"syncthing-audit/finding"
	"syncthing-audit/lists"
	"syncthing-audit/part"
	"syncthing-audit/print"
	"syncthing-audit/shell"
)

// unseenIn counts how names wait at the devices that send what a scan finds.
func unseenIn(from *finding.Folder) *finding.Waiting {
	unseen := finding.NewWaiting()
	for member := range from.Members {
		if waits := from.SendsAfterScan(member); waits != nil {
			unseen.Add(waits)
		}
	}
	return unseen
}

// inMotion says how many names are in motion, and how they wait where a scan sends something else than what is recorded.
func (f *Folder) inMotion() string {
	told := "; in motion: " + thousands(f.Live.Moving)
	if counts := countsOfWaiting(f.unseen.Names); counts != "" {
		return told + ", NOT audited, of which no scan has seen: " + counts
	}
	return told
}

// still says for how long the names were still.
func still(folder *Folder) string {
	if folder.Live.OfParts {
		return ""
	}
	if folder.Live.Seconds == nil {
		return "still: "
	}
	return fmt.Sprintf("still for %s s: ", thousands(int64(*folder.Live.Seconds)))
}

// wordsOfMoved say what changed, or what a device waits with.
var wordsOfMoved = map[string]string{
	part.MovedRecord:    "its record changed",
	part.MovedViews:     "what it knows of others' records changed",
	part.MovedDisk:      "what stands on the disk changed",
	part.MovedReceiving: "it is being received",
	part.MovedLater:     "another device knows of a later change of it",
	part.MovedUnscanned: "the disk isn't as recorded: it waits for a scan by Syncthing",
}

// beforeScan is what whoever has a scan made is to know first.
const beforeScan = "it may delete on all devices what is missing, and send to all what stands there. See that the disk is mounted, and copy back first what is to stay."

// advice says what brings names in motion to rest. What waits for a scan waits on where none comes, however often one audits.
func toRest(live *finding.Live) string {
	switch {
	case live.WentBack:
		return "do what stands above behind 'first'"
	case live.OfParts:
		return "make the parts anew, and audit again"
	}
	switch live.Waits {
	case 0:
		if slices.IndexFunc(live.Names, isReceived) >= 0 {
			return "audit again. If one is still being received then, see whether the disk is full there, and whether Syncthing's page lists 'Failed Items'"
		}
		return "audit again"
	case live.Moving:
		return "audit again after a scan by Syncthing, as with --rescan"
	}
	return "audit again, and for what waits for a scan after one by Syncthing, as with --rescan"
}

// isReceived says whether a device was receiving a name. One that fails at it, as on a full disk, looks the same, and begins again and again.
func isReceived(moving finding.Moving) bool {
	return slices.IndexFunc(moving.At, func(at finding.Moved) bool { return slices.Contains(at.Why, part.MovedReceiving) }) >= 0
}

// moving prints the names in motion, and what hasn't been heard of.
func (p *printer) moving(folder *Folder) {
	live := folder.Live
	if live == nil {
		return
	}
	if live.Seconds == nil && !live.OfParts {
		p.Line("for how long %s was still isn't known: the devices' clocks differ by more than that", folder.ID)
	}
	p.movingNames(folder, live)
	for _, unheard := range live.Unheard {
		p.Line("not heard of in %s: what %s recorded last of %s hasn't reached %s: it is on its way, or the two aren't connected", folder.ID,
			p.Called(unheard.Of), counted(unheard.Names, "still name", "still names"), p.Called(unheard.Device))
	}
}

// movingNames prints the names in motion, in the order in which something is to be done: what a scan would lose comes before the advice to have one made.
func (p *printer) movingNames(folder *Folder, live *finding.Live) {
	next, isWaiting := "", live.Waits > 0
	if !isWaiting {
		next = ": " + toRest(live)
	}
	if live.Moving > 0 {
		p.Line("in motion in %s: %s, not audited%s", folder.ID, counted(live.Moving, "name", "names"), next)
	}
	if isWaiting {
		p.running("  before a scan:", beforeScan)
	}
	listed(p, mostOfList, live.Moving, worstOf(live), "--json has "+thousands(int64(len(live.Names))), func(moving finding.Moving) string {
		words := print.Joined(moving.At, "; ", func(at finding.Moved) string { return p.Called(at.Device) + ": " + p.whyMoved(folder, at) })
		return shell.Path(string(moving.Name)) + ": " + words
	})
	if isWaiting {
		p.Line("  then: %s", toRest(live))
	}
}

// whyMoved says what changed of a name on a device, or how it waits there.
func (p *printer) whyMoved(folder *Folder, at finding.Moved) string {
	why := lists.Where(at.Why, func(word string) bool { return word != part.MovedUnscanned || at.Waits == "" })
	words := lists.Each(why, func(word string) string { return wordsOfMoved[word] })
	if at.Waits != "" {
		words = append(words, p.wordsOfWaiting(folder, at))
	}
	return strings.Join(words, ", ")
}
