package summary

import (
	"sort"
	"strings"

	"golang.org/x/exp/maps"
	"golang.org/x/exp/slices"
	"syncthing-audit/damage"
	"syncthing-audit/finding"
	"syncthing-audit/lists"
	"syncthing-audit/print"
)

// waiting counts the names that wait for a scan on a device that sends what a scan finds, in all folders.
type waiting struct {
	*finding.Waiting
	folders []string
}

// noteWaiting notes what waits for a scan. A start of Syncthing makes one.
func (a *actions) noteWaiting(folder *finding.Folder) {
	for place, member := range folder.Members {
		if found := folder.SendsAfterScan(place); found != nil {
			if a.waits[member.Head.Device] == nil {
				a.waits[member.Head.Device] = &waiting{Waiting: finding.NewWaiting()}
			}
			to := a.waits[member.Head.Device]
			to.Add(found)
			to.folders = append(to.folders, folder.ID)
		}
	}
}

// wordsOfWaiting say how many names wait so.
var wordsOfWaiting = map[string][2]string{
	finding.WaitsMissing:     {"is MISSING", "are MISSING"},
	string(damage.Emptied):   {"is EMPTY", "are EMPTY"},
	string(damage.Zeros):     {"is all ZEROS", "are all ZEROS"},
	string(damage.Cut):       {"is CUT SHORT", "are CUT SHORT"},
	string(damage.ZeroBlock): {"has a block of ZEROS", "have a block of ZEROS"},
	string(damage.OverZeros): {"isn't the recorded zeros under the recorded time", "aren't the recorded zeros under the recorded time"},
	string(damage.Longer):    {"is longer under the recorded time", "are longer under the recorded time"},
	finding.WaitsUnknown:     {"isn't as recorded (no details were kept)", "aren't as recorded (no details were kept)"},
	finding.WaitsChanged:     {"is changed", "are changed"},
	finding.WaitsBack:        {"is back though deleted", "are back though deleted"},
}

// countsOfWaiting say how many names wait how.
func countsOfWaiting(names map[string]int64) string {
	kinds := lists.Where(finding.KindsOfWaiting, func(kind string) bool { return names[kind] > 0 && kind != finding.WaitsNew })
	return print.Joined(kinds, ", ", func(kind string) string {
		return counted(names[kind], wordsOfWaiting[kind][0], wordsOfWaiting[kind][1])
	})
}

// sources says from which devices what is recorded can be copied.
func (w *waiting) sources(named print.Names, older, off string) string {
	ids := maps.Keys(w.From)
	sort.Strings(ids)
	words := lists.Each(named.Rising(ids), func(id string) string { return thousands(w.From[id]) + " on " + named(id) })
	if w.Nowhere > 0 {
		words = append(words, thousands(w.Nowhere)+" on no audited device (look among "+older+" and backups"+off+")")
	}
	if len(words) == 0 {
		return ""
	}
	return " As recorded: " + strings.Join(words, ", ") + "."
}

// firstWaiting says of a device that a start or a scan there would send what no scan has seen.
func (s *Summary) firstWaiting(device string, named print.Names) []First {
	waits := s.actions.waits[device]
	if waits == nil {
		return nil
	}
	return []First{{Why: isUnscanned, Devices: []string{device}, Names: waits.Sent(), Text: "first, on " + named(device) + ": before Syncthing starts or scans there, also for an entry below, " +
		"see which names no scan has seen yet ('in motion in " + strings.Join(waits.folders, "', 'in motion in ") + "' below): " + countsOfWaiting(waits.Names) +
		". A scan may delete on all devices what is missing there, and send to all what stands there. As Syncthing starts, it scans all folders. So copy back first " +
		"what is to stay as it is recorded, while Syncthing is stopped there." + waits.keep() + waits.sources(named, versions(named, s.foldersOf(waits.folders)...), s.areOff(waits.folders))}}
}

// keep says of what is to be kept where the record may be the damage: nobody is to copy the recorded bytes over others that were put back.
func (w *waiting) keep() string {
	for _, kind := range damage.Kinds {
		if kind.MayBeOfRecord() && w.Names[string(kind)] > 0 {
			return " Of what is longer, or isn't the recorded zeros, first keep a copy outside the folder: what was recorded may be the damage."
		}
	}
	return ""
}

// rankOf gives the place of the first of a name's kinds of waiting: what looks most like damage is told first.
func rankOf(moving finding.Moving) int {
	rank := len(finding.KindsOfWaiting)
	for _, at := range moving.At {
		if place := slices.Index(finding.KindsOfWaiting, at.Waits); place >= 0 && place < rank {
			rank = place
		}
	}
	return rank
}

// worstOf gives the names in motion, those that look most like damage first.
func worstOf(live *finding.Live) []finding.Moving {
	names := append([]finding.Moving{}, live.Names...)
	sort.SliceStable(names, func(one, other int) bool { return rankOf(names[one]) < rankOf(names[other]) })
	return names
}

// causesOfWaiting are the faults as which names wait for a scan; all other ones are changed, and look damaged.
var causesOfWaiting = map[string]Cause{finding.WaitsMissing: Missing, finding.WaitsBack: Back, finding.WaitsNew: NotScanned, finding.WaitsUnknown: Differs, finding.WaitsChanged: Changed}

// wordsOfWaiting says how a name waits for a scan on a device, as the fault that it would be if it were still, and where what is recorded stands.
func (p *printer) wordsOfWaiting(folder *Folder, at finding.Moved) string {
	fault := &Fault{Device: at.Device, Cause: Changed, Damage: damage.Kind(at.Waits), Recorded: at.Recorded, Found: at.Found, isOverWire: folder.isOverWire(at.Device)}
	if cause, is := causesOfWaiting[at.Waits]; is {
		fault.Cause, fault.Damage = cause, damage.None
	}
	told := wordsOfFaults([]*Fault{fault}, false) + p.since(fault)
	switch {
	case !finding.LosesRecorded(at.Waits) || at.Waits == finding.WaitsUnknown:
		return told
	case len(at.Have) == 0:
		return told + "; as recorded on no other audited device"
	}
	return told + "; as recorded on " + p.Called.All(at.Have)
}
