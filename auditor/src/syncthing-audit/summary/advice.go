package summary

import (
	"golang.org/x/exp/slices"
	"syncthing-audit/damage"
	"syncthing-audit/forecast"
	"syncthing-audit/lists"
	"syncthing-audit/outlook"
	"syncthing-audit/part"
	"syncthing-audit/print"
)

const receiveOnly = "receive-only"

// adviceOf says what to do about a name, each thing once: what to look for elsewhere; the steps that were found for it or, without any, what is to be saved;
// and what its faults ask for beside that. It foretells nothing: package outlook does.
func adviceOf(file *File, named print.Names) []string {
	advice := append(file.withoutCopy(named), file.beforeStart(named)...)
	for _, fault := range file.Faults {
		for _, told := range []string{file.adviceOfFault(fault, named), file.afterSaving(fault, named)} {
			if told != "" {
				advice = print.AddOnce(advice, told)
			}
		}
	}
	if len(file.Faults) == 0 && len(file.Permissions) > 0 {
		on := named.All(lists.Each(file.Permissions, func(mode Mode) string { return mode.Device }))
		advice = append(advice, "'chmod' "+file.say("it", "them")+" to the mode that is right on "+on+", before Syncthing scans there; or choose 'Ignore Permissions' for the folder")
	}
	if len(advice) == 0 && file.foretold.isKnown() {
		advice = append(advice, file.nothing())
	}
	return advice
}

// beforeStart says what comes before Syncthing starts: the steps for the name or, without any, what is to be saved or decided.
func (f *File) beforeStart(named print.Names) []string {
	it := f.say("it", "them")
	switch plan := f.foretold.plan; {
	case plan != nil && plan.Goal != nil:
		return []string{"take the steps for " + it + " above, under 'to do in'"}
	case plan != nil:
		return []string{"take the steps for " + it + " above, under 'to do in', which save what is to stay"}
	case !f.foretold.isKnown():
		return f.toSave(named)
	case f.foretold.is(outlook.Lost) || f.looksDamaged():
		return []string{"before Syncthing starts or scans on any of these devices, copy elsewhere what is to stay"}
	case f.foretold.is(outlook.Deleted):
		return []string{"nothing, if " + f.say("it", "they") + " may go. If not, copy " + it + " elsewhere before Syncthing starts on any of these devices"}
	case f.foretold.is(outlook.Changed) && !f.isWithoutCopy():
		if f.has((*Fault).isOlder) {
			return []string{"nothing, if the older " + f.say("file is", "files are") + " wanted on all devices"}
		}
		return []string{"nothing, if the " + f.say("change is", "changes are") + " wanted"}
	case f.foretold.is(outlook.Stays) && !f.isWithoutCopy():
		return []string{f.toLeave(named)}
	}
	return nil
}

// toLeave says what to do about a name that stays otherwise on some device.
func (f *File) toLeave(named print.Names) string {
	it := f.say("it", "them")
	switch on := f.ignoringDeletions(); {
	case len(on) > 0 && f.has(func(fault *Fault) bool { return fault.Deletion }):
		return "nothing, if " + named.All(on) + " is to keep what others delete. If " + f.say("it is", "they are") + " to go there, too, delete " + it + " there; or set the folder's " +
			"option 'ignoreDelete' to false there, and Syncthing deletes there all that others have deleted. If all are to have " + it + " again, put " + it +
			" on each of these devices, while Syncthing is stopped on all"
	case f.isKept(forecast.InvalidName):
		return "if all are to have " + it + ", " + f.toRename()
	case f.hasChoice() && f.foretold.hasSteps:
		return "leave " + it + " so, or choose something for the whole folder, as another audit says once the steps above are taken"
	case f.hasChoice():
		return "choose for the whole folder what stands above, behind 'to choose in', or leave " + it + " so"
	}
	return "copy elsewhere what is to stay. Then, while Syncthing is stopped on all of these devices, put what is wanted on each of them"
}

// toRename says what to do about a name that Windows can't have.
func (f *File) toRename() string {
	it := f.say("it", "them")
	return "rename " + it + " on a device that has " + it + ": Windows has no name with one of < > : \" | ? * \\ or a control character in it, none that ends with a space or a dot, and none such as CON or LPT1"
}

// isKept says whether a device keeps the name otherwise than others for this reason.
func (f *File) isKept(why forecast.Why) bool {
	return slices.IndexFunc(f.foretold.fate.Kept, func(kept outlook.Kept) bool { return kept.Why == why }) >= 0
}

// ignoringDeletions gives the devices that keep the name since their folder's option has them ignore deletions.
func (f *File) ignoringDeletions() []string {
	devices := []string{}
	for _, kept := range f.foretold.fate.Kept {
		if kept.Why == forecast.IgnoresDeletions {
			devices = print.AddOnce(devices, kept.Device)
		}
	}
	return devices
}

// hasChoice says whether on a device that keeps the name otherwise than others something may be chosen for the whole folder.
func (f *File) hasChoice() bool {
	return slices.IndexFunc(f.foretold.fate.Kept, func(kept outlook.Kept) bool { return f.foretold.choices[kept.Device] }) >= 0
}

// nothing says that a name comes right by itself.
func (f *File) nothing() string {
	if f.foretold.hasSteps {
		return "nothing but the start with which the steps above end"
	}
	return "nothing: let Syncthing run on all of these devices until it is idle"
}

// toSave says what is to be saved of a name of which it isn't known what becomes of it.
func (f *File) toSave(named print.Names) []string {
	on := []string{}
	if len(f.Have) > 0 && !f.isDeletionDue() {
		on = append(on, named.Rising(f.Have)[0])
	}
	for _, fault := range f.Faults {
		isHolding := !kinds[fault.Cause].isOfDisk && fault.Recorded != nil && !fault.Recorded.Deleted && !f.hasAt(fault.Device, Missing)
		if fault.Found != nil || fault.Cause == Differs || fault.Cause == Damaged || isHolding {
			on = print.AddOnce(on, fault.Device)
		}
	}
	if len(on) == 0 || len(f.Faults) == 0 {
		return nil
	}
	return []string{"before Syncthing starts or scans on any of these devices, copy elsewhere what is to stay of what stands on " + named.All(on)}
}

// isWithoutCopy says whether a disk was harmed that had what is due, and no audited device has that.
func (f *File) isWithoutCopy() bool {
	return len(f.Have) == 0 && f.has(f.isHarmOfDue)
}

// isHarm says whether what stands on a disk, or what doesn't stand there, isn't somebody's change as far as it shows.
func (f *Fault) isHarm() bool {
	return f.Cause == Missing || f.Cause == OtherBytes || f.looksDamaged()
}

// isHarmOfDue says whether a disk was harmed on a device that recorded what is due.
func (f *File) isHarmOfDue(fault *Fault) bool {
	return fault.isHarm() && fault.Due != nil && !fault.Due.Deleted && !f.hasAt(fault.Device, Behind, Conflicting, LocalChange)
}

// withoutCopy says to look elsewhere for what no audited device has, and on which disks some of its blocks are.
func (f *File) withoutCopy(named print.Names) []string {
	if !f.isWithoutCopy() {
		return nil
	}
	on, most := []string{}, (*Fault)(nil)
	for _, fault := range f.Faults {
		if f.isHarmOfDue(fault) && fault.Blocks != nil && fault.Blocks.Count < fault.Blocks.Of {
			on = print.AddOnce(on, fault.Device)
			if most == nil || fault.Blocks.Count < most.Blocks.Count {
				most = fault
			}
		}
	}
	if f.elsewhere != nil && !f.isMany {
		return []string{f.elsewhere.advice(f, named)}
	}
	told := "look among " + f.versions + " and backups: no audited device has what is recorded"
	if len(on) > 0 {
		told += ". Some of its blocks are on " + named.All(on)
	}
	if len(on) > 1 {
		told += ", the most on " + named(most.Device)
	}
	return []string{told + mayBeOff(f.off)}
}

// afterSaving says how what was saved before other bytes came under its very time comes back, as a change that all take.
func (f *File) afterSaving(fault *Fault, named print.Names) string {
	if !fault.IsOfOneTime || f.foretold.isKnown() && !f.foretold.is(outlook.Lost) {
		return ""
	}
	return "to have again what " + named(fault.Device) + " has now: put " + f.say("the saved copy", "the saved copies") + " back once all devices are idle, and 'touch' " + f.say("it", "them")
}

// adviceOfFault says what a fault asks for by itself.
func (f *File) adviceOfFault(fault *Fault, named print.Names) string {
	at := named(fault.Device)
	switch {
	case fault.Cause == Damaged:
		return "see the system's log on " + at + " (journalctl -k, smartctl -a): its disk fails there, and may soon fail elsewhere. Save what that disk has and no other " +
			"device has, replace it, and bring back what is lost. Don't delete what is damaged, and don't start Syncthing there, before that is done"
	case fault.Cause == Differs && f.isOfSum: // 'sum' has no details of what documents tell, of however few names that is
		return "'syncthing-audit check' of the same parts or homes tells the details"
	case fault.Cause == Differs || fault.isAlone() && fault.Due == nil && len(fault.sources) == 0:
		return f.say("audit it by itself: --names with this name tells more", "audit some of them by themselves: --names with how they begin tells more") + "; parts are made anew with it"
	case fault.Cause == NotScanned && f.isOdd:
		return "rename " + f.say("it", "them") + " on " + at + ": " + f.say("its name isn't", "their names aren't") + " in Unicode's form NFC, in which Syncthing has names"
	case !f.isOfWindows && fault.isOverWire && fault.Cause == Behind && fault.Recorded == nil:
		return "if " + at + " runs Windows, " + f.toRename()
	case fault.isUntold:
		return at + " has heard of later changes of those who have " + f.say("it, and not of this one", "them, and not of these") + ": stop Syncthing on " + at + ", and " + part.ResetDeltas
	case len(fault.sources) > 0 && (fault.isHarm() || fault.Cause == Changed) && !fault.Damage.MayBeOfRecord() && !f.foretold.hasGoal() && (!f.foretold.isKnown() || f.foretold.is(outlook.Changed) || fault.Damage != damage.None):
		return f.putBack(fault, named)
	}
	return ""
}

// asItIs is how something is copied whole, with its attributes.
const asItIs = " (cp -a, or rsync -aIX, as the user who runs Syncthing there)"

// putBack says how a device's disk gets what the device recorded from another disk. Into a file that stands there the bytes and the time alone are written: so
// it keeps its owner, mode and attributes, also where root copies it.
func (f *File) putBack(fault *Fault, named print.Names) string {
	told := fault.whetherEdit(f, named) + "to have again what " + named(fault.Device) + " recorded, "
	isSaved := !f.foretold.isKnown() || f.foretold.plan == nil && f.looksDamaged() // as the entry says before
	if fault.Found != nil && !isSaved {
		told += "copy elsewhere what stands there, if it may be right, and "
	}
	told += "copy " + f.say("it", "them") + " from " + named(named.Rising(fault.sources)[0]) + " to " + named(fault.Device)
	switch {
	case fault.isFileForFile():
		told += f.say(" with its time alone, into the file that stands there", " with their times alone, into the files that stand there") + " (cp --preserve=timestamps, or rsync --inplace --times --ignore-times)"
	case fault.Found != nil:
		told += f.say(" as it is", " as they are") + asItIs + ", once what stands there is moved away,"
	default:
		told += f.say(" as it is", " as they are") + asItIs + ", with the directories above that aren't there,"
	}
	return told + " while Syncthing is stopped there"
}
