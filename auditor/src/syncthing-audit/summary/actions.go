package summary

import (
	"golang.org/x/exp/slices"
	"syncthing-audit/outlook"
	"syncthing-audit/print"
)

// actions are what all entries of an answer tell to do on devices. A start of Syncthing scans all folders, and each entry speaks of its own names
// alone: so what one of them tells to do first counts for all others.
type actions struct {
	entries int
	safe    map[string]bool     // the devices on which some entry tells to do something before Syncthing starts or scans there
	wrong   map[wrongAt]*First  // of which names that is told above all entries
	waits   map[string]*waiting // what no scan has seen there
}

// wrongAt is why names on a device are told above all entries.
type wrongAt struct{ why, device string }

// note notes what the entry of a folder's name tells to do, where some device holds so many names of the folder.
func (a *actions) note(file *File, folder string, held int64) {
	a.entries++
	for _, device := range file.toMakeSafe() {
		a.safe[device] = true
	}
	for _, fault := range file.Faults {
		at := wrongAt{file.whyFirst(fault), fault.Device}
		if a.wrong[at] == nil {
			a.wrong[at] = &First{Why: at.why, Devices: []string{at.device}}
		}
		a.wrong[at].add(folder, held)
	}
}

// add adds a name of a folder.
func (f *First) add(folder string, held int64) {
	f.Names++
	if !slices.Contains(f.folders, folder) {
		f.folders, f.held = append(f.folders, folder), f.held+held
	}
}

// whyFirst says why a fault is told above all entries; nothing where it isn't. What is missing may come back by itself.
func (f *File) whyFirst(fault *Fault) string {
	switch {
	case fault.Cause == Missing && !f.isDeletionDue() && !f.comesBack(fault):
		return isMissing
	case fault.isOlder() && fault.Kind != receiveOnly && !f.foretold.hasGoal():
		return isOlderFile
	case !fault.looksDamaged() || fault.Kind == receiveOnly:
		return ""
	case fault.Damage.MayBeOfRecord():
		return isLonger
	}
	return isDamaged
}

// comesBack says whether by itself something comes to stand again where the name is missing on a device.
func (f *File) comesBack(fault *Fault) bool {
	if !f.foretold.isKnown() || len(f.foretold.fate.Ends) == 0 {
		return false
	}
	isThere := func(thing outlook.Thing) bool { return !thing.IsCopy && slices.Contains(thing.Devices, fault.Device) }
	return slices.IndexFunc(f.foretold.fate.Ends, func(end []outlook.Thing) bool { return slices.IndexFunc(end, isThere) < 0 }) < 0
}

// toMakeSafe gives the devices on which something is to be done for the name before Syncthing starts or scans there.
func (f *File) toMakeSafe() []string {
	devices := f.withoutSteps()
	if plan := f.foretold.plan; plan != nil {
		for _, step := range plan.Steps {
			devices = print.AddOnce(devices, step.Device)
		}
	}
	return devices
}

// withoutSteps gives those of these devices for which the entry itself tells that, and not the steps.
func (f *File) withoutSteps() []string {
	devices, hasSteps := []string{}, f.foretold.plan != nil
	for _, fault := range f.Faults {
		if fault.Cause == Damaged || !hasSteps && (!f.foretold.isKnown() || f.foretold.is(outlook.Lost) || f.looksDamaged()) {
			devices = print.AddOnce(devices, fault.Device)
		}
	}
	for _, mode := range f.Permissions {
		if len(f.Faults) == 0 && mode.Disk != "" && mode.Disk != mode.Index {
			devices = print.AddOnce(devices, mode.Device)
		}
	}
	return devices
}

// isToDecide says whether a start has all devices change or delete the name, which somebody may not want.
func (f *File) isToDecide() bool {
	return f.foretold.plan == nil && (f.foretold.is(outlook.Changed) || f.foretold.is(outlook.Deleted))
}

// The dangers of names, the greatest one first.
const (
	losesBytes = iota
	isNotKnown
	isSafe
)

// danger says what may come of the name's bytes, as far as that is known.
func (f *File) danger() int {
	switch {
	case f.foretold.is(outlook.Lost) || f.looksDamaged() || f.has(func(fault *Fault) bool { return fault.Cause == Damaged }):
		return losesBytes
	case len(f.Faults) > 0 && !f.foretold.isKnown():
		return isNotKnown
	}
	return isSafe
}
