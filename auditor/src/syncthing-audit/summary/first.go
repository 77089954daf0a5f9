package summary

import (
	"strings"

	"syncthing-audit/part"
	"syncthing-audit/print"
)

// First is what is to be done on some devices before all that the entries tell to do there.
type First struct {
	Why     string   `json:"why"`
	Devices []string `json:"devices"`
	Names   int64    `json:"names,omitempty"` // how many names it is about, where these are counted
	Text    string   `json:"text"`
	folders []string // that have these names
	held    int64    // names that some device holds in these folders
}

// Why something comes first, in the order in which it is told.
const (
	isOlder     = "went-back"      // a device's index is older than what others know of it
	isChanged   = "bytes-changed"  // files that a history saw with other bytes under one time are recorded so, and steps send them
	isUnscanned = "not-scanned"    // names wait for a scan, which sends what stands there
	isScanned   = "scan-under-way" // what a scan found may wait in Syncthing's memory
	isLonger    = "kept-first"     // files of which either the disk or the record is damaged
	isDamaged   = "looks-damaged"
	isOlderFile = "older-files" // a scan sends older files than recorded in place of the newer ones
	isMissing   = "missing"     // what a device recorded isn't on its disk, and doesn't come back there by itself
	isMadeSafe  = "made-safe"   // entries tell what comes before a start
	isNotAsked  = "not-asked"   // of the other names nobody knows what a start does
)

// firstOf gives what comes before all entries.
func (s *Summary) firstOf(named print.Names) []First {
	lines := append(s.firstOlder(named), s.firstScans(named)...)
	for _, device := range s.Devices {
		lines = append(lines, s.firstWaiting(device.ID, named)...)
	}
	for _, why := range []string{isLonger, isDamaged, isOlderFile, isMissing} {
		for _, device := range s.Devices {
			if wrong := s.actions.wrong[wrongAt{why, device.ID}]; wrong != nil {
				wrong.Text = "first, on " + named(device.ID) + ": " + wrong.words()
				lines = append(lines, *wrong)
			}
		}
	}
	return append(lines, s.firstStarts(named)...)
}

// words say what is to be done about them.
func (f *First) words() string {
	switch f.Why {
	case isLonger:
		return counted(f.Names, "file has", "files have") + " more bytes than recorded, or other ones than recorded zeros, under the recorded time. " +
			"Keep a copy outside the folder before Syncthing starts or scans there"
	case isDamaged:
		return counted(f.Names, "file looks", "files look") + " damaged, not edited. Do what is said of that below before Syncthing starts or scans there"
	case isOlderFile:
		return counted(f.Names, "file is", "files are") + " older than recorded, as after a backup was put back. A scan sends the older bytes to all devices, in place of the newer ones. " +
			"See whether that is wanted before Syncthing starts or scans there"
	}
	return "see that the disk of " + strings.Join(f.folders, ", ") + " is mounted before Syncthing starts or scans there: " + f.ofHeld() + " missing"
}

// firstOlder tells on which devices the index went back. A plain start there gives sequences anew, and what changes under these nobody hears of.
func (s *Summary) firstOlder(named print.Names) []First {
	on, lines := []string{}, []First{}
	for _, earlier := range s.Earlier {
		if earlier.WentBack && earlier.ID != "" {
			on = print.AddOnce(on, earlier.ID)
		}
	}
	for _, device := range on {
		lines = append(lines, First{Why: isOlder, Devices: []string{device}, Text: "first, on " + named(device) + ": its index is older than what others know of it, as after " +
			"an older home was put in its place. After a plain start Syncthing may never tell some of its changes. So stop it there, save what is to stay, and " + part.ResetDeltas +
			". Once all are idle, audit again. If a copy of the home was read, make it anew in place of that"})
	}
	return lines
}

// ofHeld says how many of the folders' names these are: a disk that isn't mounted lacks all, or all below a directory.
func (f *First) ofHeld() string {
	all := "of " + counted(f.held, "name", "names")
	return counted(f.Names, all+" is", all+" are")
}

// firstScans tells on which devices a scan or a pull was under way: no later step keeps back what a scan found already.
func (s *Summary) firstScans(named print.Names) []First {
	on := []string{}
	s.eachMember(func(_ *Folder, member *Member) {
		if member.isScanning() {
			on = print.AddOnce(on, member.Device)
		}
	})
	if len(on) == 0 {
		return nil
	}
	return []First{{Why: isScanned, Devices: on, Text: "first, on all devices but " + named.All(on) + ": copy to a place outside the folder what is to stay. On " +
		named.All(on) + " Syncthing wasn't seen idle, and nobody knows what a scan there has found. Then let it finish, and audit again before you do what stands below"}}
}

// isScanning says whether Syncthing was at work in the folder between two looks.
func (m *Member) isScanning() bool {
	rest := part.Rest{State: m.Rest}
	return m.Rest != "" && !rest.IsAtRest() && m.Rest != part.RestUnasked
}

// firstStarts tells on which devices something is to be made safe before Syncthing starts, where another entry tells or implies a start there. Of names
// that weren't asked for nobody knows what a start does.
func (s *Summary) firstStarts(named print.Names) []First {
	unseen, first, lines := []string{}, []string{}, []First{}
	for _, device := range s.Devices {
		if s.actions.safe[device.ID] && s.actions.entries > 1 {
			first = append(first, device.ID)
		} else if s.actions.entries > 0 && !device.asked.IsAll() && !s.isLive() {
			unseen = append(unseen, device.ID)
		}
	}
	if len(first) > 0 {
		lines = append(lines, First{Why: isMadeSafe, Devices: first, Text: "first, on " + named.All(first) +
			": do what the steps and the entries below say to do before Syncthing starts or scans there. As it starts, it scans all folders"})
	}
	if len(unseen) > 0 {
		lines = append(lines, First{Why: isNotAsked, Devices: unseen, Text: "before a start, on " + named.All(unseen) +
			": as Syncthing starts, it scans all folders. What that does to names that weren't asked for isn't known: they may be missing there"})
	}
	return lines
}

// first prints what comes before all entries, above them.
func (p *printer) first(s *Summary) {
	if len(s.First) > 0 {
		p.Line("")
	}
	for _, first := range s.First {
		if first.Why == isUnscanned || first.Why == isScanned || first.Why == isOlder {
			line, text, _ := strings.Cut(first.Text, " ")
			p.running(line, text)
		} else {
			p.Line("%s", first.Text)
		}
	}
}

// isLive says whether the devices were looked at while they ran, and so scan as they did.
func (s *Summary) isLive() bool {
	return len(s.Folders) > 0 && s.Folders[0].Live != nil && !s.Folders[0].Live.OfParts
}
