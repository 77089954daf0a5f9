package summary

import (
	"syncthing-audit/finding"
	"syncthing-audit/lists"
	"syncthing-audit/print"
	"syncthing-audit/shell"
)

// unsureOf gives what may change a folder in step, and that no record shows, with words for each.
func unsureOf(from *finding.Folder) []finding.Unsure {
	return lists.Each(from.Unsure(), func(unsure finding.Unsure) finding.Unsure {
		unsure.Why = whyUnsure(unsure)
		return unsure
	})
}

// whyUnsure says in words what may change a folder.
func whyUnsure(unsure finding.Unsure) string {
	switch unsure.Kind {
	case finding.Waits:
		return "no scan has seen what stands there: " + countsOfWaiting(unsure.Waits.Names)
	case finding.ToIgnore:
		return counted(unsure.Names, "directory", "directories") + " in its index that .stignore ignores by now"
	case finding.Writers:
		return "Syncthing writes and deletes in its directory for " + unsure.Why + ", too"
	case finding.Linked:
		return counted(unsure.Names, "name stands for a file that has a name elsewhere, too (a hard link)",
			"names stand for files that have names elsewhere, too (hard links)") + ": whoever sets time or mode there sets them here, as " +
			"Syncthing does for a folder that has such a link"
	case finding.OverWire:
		return whyOverWire(unsure)
	}
	return unsure.Why
}

// whatToDo says what to do about what may change a folder.
var whatToDo = map[string]string{
	finding.Waits:    "A scan may send that to all devices. Do first what stands above for that device",
	finding.Busy:     "What a scan found may wait in its memory. Audit again once it is idle, or with a longer --still",
	finding.Wanted:   "See its page there, and audit again once that is mended",
	finding.ToIgnore: "Have Syncthing scan the folder, and audit again",
	finding.Writers:  "A place elsewhere for these, or a line of .stignore that keeps them out, ends that",
	finding.Linked:   "What the times and modes become isn't known. A copy in place of the link ends that",
	finding.OverWire: "A walk of its disks (--disk) sees most of that, and an audit of the device itself all: its part, made while Syncthing is stopped there, or 'run'",
}

// unsure prints what may change a folder in step.
func (p *printer) unsure(folder *Folder) {
	for _, kind := range finding.KindsOfUnsure {
		told := print.Places{}
		for _, unsure := range folder.Unsure {
			if unsure.Kind == kind {
				told.Add(unsure.Why, unsure.Device)
			}
		}
		told.Each(p.Called, func(why, devices string) {
			p.running(folder.Firm.CallUnsure()+": "+shell.Folder(folder.ID, folder.Label)+" on "+devices+":", why+". "+whatToDo[kind]+".")
		})
	}
}
