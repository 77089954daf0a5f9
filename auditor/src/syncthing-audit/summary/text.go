package summary

import (
	"fmt"
	"io"
	"strconv"
	"time"

	"syncthing-audit/damage"
	"syncthing-audit/finding"
	"syncthing-audit/lists"
	"syncthing-audit/print"
	"syncthing-audit/shell"
)

// printer prints a summary for a person.
type printer struct {
	*print.Person
	now time.Time
}

// Print prints a summary for a person, with times of this zone.
func (s *Summary) Print(to io.Writer, zone *time.Location, now time.Time) {
	noticed := &noticing{to: to}
	p := &printer{&print.Person{To: noticed, Called: s.Called(), Zone: zone}, now}
	p.emptied(s)
	for _, folder := range s.Folders {
		p.folder(folder)
	}
	p.history(s)
	p.first(s)
	for _, folder := range s.Folders {
		p.Outlook(shell.Folder(folder.ID, folder.Label), folder.Verdict != NotInStep, folder.Outlook)
		if folder.Converging == finding.Converges {
			p.Converging(shell.Folder(folder.ID, folder.Label), folder.Outlook, folder.Pairs)
		}
	}
	p.entries(s)
	for _, folder := range s.Folders {
		p.loose(folder)
	}
	p.rest(s)
	p.forReading(noticed)
}

// verdict says whether a folder is in step, and firm.
func (p *printer) verdict(folder *Folder) string {
	if folder.Verdict == NotInStep {
		verdict := "NOT in step, " + counted(folder.Wrong, "name is wrong", "names are wrong")
		if folder.Unread > 0 {
			verdict += ", of which " + counted(folder.Unread, "was found so before and isn't read again", "were found so before and aren't read again")
		}
		if folder.modes > 0 {
			verdict += ", and of " + thousands(folder.modes) + " more the permissions alone differ"
		}
		return verdict
	}
	verdict := "in step"
	if folder.Firm == finding.IsFirm {
		verdict += " and firm"
	}
	if folder.Verdict == AsFar {
		verdict += folder.asFarAs()
	}
	switch folder.Firm {
	case finding.NotFirm:
		verdict += ", not firm"
	case finding.NotKnown:
		verdict += ", not known to be firm"
	}
	return verdict
}

// folder prints the one line of a folder.
func (p *printer) folder(folder *Folder) {
	verdict := p.verdict(folder)
	names, moving := counted(folder.Names, "name", "names"), ""
	if folder.Live != nil {
		names, moving = still(folder)+names, folder.inMotion()
	}
	deleted := thousands(folder.Deleted) + " deleted"
	if folder.Going > 0 {
		deleted += ", " + thousands(folder.Going) + " being deleted"
	}
	p.Line("%s: %s; %s (%s), %s hashed on %s%s", shell.Folder(folder.ID, folder.Label), verdict, names, deleted, size(folder.Bytes), p.Called.All(devicesIn(folder)), moving)
}

// wordsOfFaults say what is wrong with a name on a device, or with several names whose faults are alike.
func wordsOfFaults(faults []*Fault, isMany bool) string {
	fault, it := faults[0], "it"
	if isMany {
		it = "them"
	}
	switch {
	case fault.Cause == Differs && fault.Why != "" && !isMany:
		return fault.Why
	case fault.mayBeEdit():
		return "other bytes on the disk, of the recorded size: rot, or an edit that no scan has taken" + fault.ofDamage()
	case fault.isTied:
		return "has something else under the same version"
	case fault.IsOfOneTime:
		return kinds[Behind].words + ": other bytes under the time of its own: rot that a scan took, or an edit that kept the time"
	case fault.Cause == Behind && fault.Deletion:
		return "behind: hasn't deleted " + it + " yet"
	case fault.isWithout():
		return "behind: doesn't have " + it + " yet"
	case fault.Cause == Conflicting && fault.Deletion:
		return "in conflict: deleted " + it + ", and lacks a change of " + it
	case fault.Cause == LocalChange && fault.Deletion:
		return "deleted on this receive-only device"
	case fault.Cause == LocalChange && fault.lacksDeletion():
		return "changed on this receive-only device, while the others have deleted " + it
	case fault.Cause == Changed && fault.Recorded != nil && fault.Found != nil && fault.Recorded.Type != fault.Found.Type:
		return fmt.Sprintf("a %s on the disk, recorded as a %s", fault.Found.Type, fault.Recorded.Type)
	case fault.Cause == Changed && fault.isFileForFile():
		return wordsOfChanged(faults)
	case fault.Cause == OtherBytes:
		return kinds[OtherBytes].words + fault.ofDamage()
	}
	return kinds[fault.Cause].words
}

// wordsOfDamage say why what stands on a disk looks like damage.
var wordsOfDamage = map[damage.Kind]string{
	damage.Emptied:   "EMPTY",
	damage.Zeros:     "all of it is ZEROS",
	damage.Cut:       "cut short under the recorded time",
	damage.ZeroBlock: "a block of it is all zeros now",
	damage.OverZeros: "all that is recorded is zeros, under the recorded time",
	damage.Longer:    "more bytes than recorded under the recorded time",
}

// wordsOfChanged say what changed in files: of one, or of many together.
func wordsOfChanged(faults []*Fault) string {
	recorded, found := int64(0), int64(0)
	for _, fault := range faults {
		recorded, found = recorded+fault.Recorded.Size, found+fault.Found.Size
	}
	words := kinds[Changed].words
	why := faults[0].Damage
	if why != damage.None && !why.MayBeOfRecord() {
		words = "looks damaged"
	}
	if recorded != found {
		words += ": " + sizes(recorded, found)
	}
	words += faults[0].ofDamage()
	if faults[0].isOlder() {
		words += ": older than recorded, as after a backup was put back"
	}
	if why.MayBeOfRecord() {
		words += ": nobody can tell which bytes are the right ones"
	}
	return words
}

// sizes tell two sizes that differ: to the byte where they read alike otherwise.
func sizes(recorded, found int64) string {
	tell := size
	if size(recorded) == size(found) {
		tell = func(bytes int64) string { return counted(bytes, "byte", "bytes") }
	}
	return tell(recorded) + " recorded, " + tell(found) + " on the disk"
}

// since says when a file was modified, as far as that is known, or why its disk fails to give it.
func (p *printer) since(fault *Fault) string {
	if fault.Cause == Damaged && fault.Why != "" {
		return " (" + fault.Why + ")"
	}
	word, of := fault.dated()
	if of == nil || of.Modified == nil { // as of a symlink
		return ""
	}
	if fault.isOlder() {
		return " (" + word + p.When(*of.Modified) + ", recorded as modified " + p.When(*fault.Recorded.Modified) + ")"
	}
	return " (" + word + p.When(*of.Modified) + ")"
}

// dated gives the state whose time is told, and a word before that. Of a deletion it is when that was.
func (f *Fault) dated() (string, *State) {
	switch {
	case f.isOverWire && (f.Cause == OtherBytes || f.Cause == Changed) && f.isFileForFile():
		return "recorded as modified ", f.Recorded
	case f.Cause == LocalChange && f.Deletion:
		return "", f.Recorded
	case f.Cause == OtherBytes || f.Cause == LocalChange:
		return "modified ", f.Recorded
	case f.isTied:
		return "", nil
	case f.Cause == Behind && f.Deletion:
		return "since ", f.Due
	case f.Cause == Behind:
		return "modified ", f.Due
	case f.Found != nil && f.Found.Type == "file" && kinds[f.Cause].isDated:
		return "modified ", f.Found
	}
	return "", nil
}

// mostRanges is how many ranges of blocks a person reads of; how many blocks more differ is said behind them.
const mostRanges = 8

// differing says by their numbers which blocks differ.
func differing(blocks *Blocks) string {
	told := int64(0)
	text := print.Joined(lists.AtMost(mostRanges, blocks.Ranges), ", ", func(span [2]int64) string {
		told += span[1] - span[0] + 1
		if span[0] == span[1] {
			return strconv.FormatInt(span[0], 10)
		}
		return fmt.Sprintf("%d-%d", span[0], span[1])
	})
	if told < blocks.Count {
		text += " and " + thousands(blocks.Count-told) + " more"
	}
	if blocks.Count == 1 {
		return "block " + text + " differs"
	}
	return "blocks " + text + " differ"
}

// modes prints permissions that differ.
func (p *printer) modes(all []Mode) {
	if len(all) == 0 {
		return
	}
	p.Line("  permissions differ (they don't count for the verdict): %s", print.Joined(all, "; ", func(mode Mode) string {
		told := p.Called(mode.Device) + " " + mode.Index
		if mode.Disk != "" && mode.Disk != mode.Index {
			told += " recorded, " + mode.Disk + " on the disk"
		}
		return told
	}))
}

// advice prints what to do, over as many lines as it takes.
func (p *printer) advice(all []string) {
	for _, word := range all {
		p.running("  to do:", word+".")
	}
}
