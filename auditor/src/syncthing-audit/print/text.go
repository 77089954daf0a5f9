package print

import (
	"io"
	"time"

	"syncthing-audit/forecast"
	"syncthing-audit/forecast/read"
	"syncthing-audit/outlook"
	"syncthing-audit/outside"
	"syncthing-audit/part"
	"syncthing-audit/shell"
)

// Person is how a person reads what is foretold.
type Person struct {
	To     io.Writer
	Called Names
	Zone   *time.Location
}

// Outlook prints what happens in a folder if nobody does anything; nothing where all names are at rest, or a folder in step stays so.
func (p *Person) Outlook(folder string, isInStep bool, o *outlook.Outlook) {
	if o.Names == 0 || isInStep && o.Right == o.Names {
		return
	}
	p.Line("\nif nobody does anything in %s, and all devices scan, then run and reach one another until nothing changes any more:", folder)
	p.right(o)
	p.lost(o)
	p.several(o)
	p.stays(o)
	p.notKnown(o)
	if o.Walked > 0 {
		p.Line("  of %s not all orders were tried: what is said of %s holds in all orders tried", Counted(o.Walked, "name", "names"), itOrThem(o.Walked))
	}
	p.plans(folder, o)
}

// Line prints a line.
func (p *Person) Line(format string, words ...interface{}) {
	outside.Printf(p.To, format+"\n", words...)
}

// When gives a time as a person reads it.
func (p *Person) When(at time.Time) string { return at.In(p.Zone).Format("2006-01-02 15:04:05 MST") }

// right tells of names of which nothing is lost, and that end alike everywhere.
func (p *Person) right(o *outlook.Outlook) {
	if p.count(o.Right, "name comes right by itself, and loses", "names come right by themselves, and lose", "nothing but what a recorded change replaced") {
		p.Line("    if not, see whether a device or the folder is paused, whether they are connected, whether a disk is full or refuses the name, and whether Syncthing's page lists 'Failed Items'")
	}
	p.count(o.Deleted, "name is", "names are", "deleted on all devices, as is recorded")
	p.count(o.Changed, "name takes", "names take", "a change that no scan has seen yet; then no device's folder has what it replaces")
}

// count says of how many names something is so, if of any.
func (p *Person) count(count int64, one, many, what string) bool {
	if count > 0 {
		p.Line("  %s %s", Counted(count, one, many), what)
	}
	return count > 0
}

// lost tells of names that lose something, the first ones by name.
func (p *Person) lost(o *outlook.Outlook) {
	p.count(o.Lost, "name loses", "names lose", "something that a disk has now:")
	told := []outlook.Thing{}
	p.named(o, outlook.Lost, o.Lost, func(name *outlook.Name) {
		for _, thing := range name.Loses {
			p.Line("    %s: %s", shell.Path(string(name.Name)), withVersions(p.where(thing)+"; then no device's folder has it"+inSome(len(name.Ends) > 1), "; ", p.Called.versions(thing)))
		}
		told = append(told, name.Loses...)
	})
	p.noBackup("    ", told)
}

// inSome says whether something is so in some orders alone.
func inSome(is bool) string {
	if is {
		return ", in some order"
	}
	return ""
}

// named calls for the first names of a fate, and says how many more there are.
func (p *Person) named(o *outlook.Outlook, of outlook.Fate, count int64, tell func(*outlook.Name)) {
	told := int64(0)
	for place := range o.Listed {
		if name := &o.Listed[place]; name.Fate == of && told < outlook.MostNamed {
			tell(name)
			told++
		}
	}
	p.more("    ", count-told)
}

// more says how many names aren't told.
func (p *Person) more(before string, count int64) {
	if count > 0 {
		p.Line("%sand %s (--json has them)", before, Counted(count, "more name", "more names"))
	}
}

func (p *Person) modified(thing outlook.Thing) string {
	if thing.Modified == nil {
		return ""
	}
	return " (modified " + p.When(*thing.Modified) + ")"
}

// where says what stands on a disk, and where.
func (p *Person) where(thing outlook.Thing) string {
	return what(thing) + " on " + p.Called.AsTheyStand(thing.Devices) + p.modified(thing)
}

// what names a thing that stands on a disk.
func what(thing outlook.Thing) string {
	if thing.Ignored != nil {
		return Counted(thing.Ignored.Names, "name", "names") + " (" + Size(thing.Ignored.Bytes) + ") that .stignore ignores with (?d)"
	}
	switch thing.Type {
	case forecast.File:
		return Size(thing.Content.Size)
	case forecast.Symlink:
		return "the symlink to " + shell.Path(string(thing.Target))
	}
	return "the directory"
}

// several tells of names with several ends.
func (p *Person) several(o *outlook.Outlook) {
	p.count(o.Depends, "name comes", "names come", "to one of several ends, by the order of what happens; nothing is lost:")
	p.named(o, outlook.Depends, o.Depends, func(name *outlook.Name) {
		p.Line("    %s: %s", shell.Path(string(name.Name)), Counted(int64(len(name.Ends)), "end", "ends"))
	})
}

// stays tells of names that stay wrong, and why.
func (p *Person) stays(o *outlook.Outlook) {
	p.count(o.Stays, "name stays", "names stay", "wrong:")
	for _, why := range o.Kept {
		p.Line("    %s on %s: %s", Counted(why.Names, "name", "names"), p.Called.AsTheyStand(why.Devices), wordsOfKept[forecast.Why(why.Why)]+inSome(why.InSome))
	}
}

// wordsOfKept say why a device keeps a name otherwise than others.
var wordsOfKept = map[forecast.Why]string{
	outlook.Differs:           "something else stands there than on most devices",
	forecast.OnlySends:        "it only sends, so it doesn't take what the others have",
	forecast.NoSource:         "it finds no device with the recorded bytes",
	forecast.NotScanned:       "something else stands there than is recorded",
	forecast.HasUnscanned:     "the directory has something that isn't recorded",
	forecast.HasIgnored:       "the directory has something that .stignore ignores there without (?d)",
	forecast.HasLocalChanges:  "the directory has local changes",
	forecast.NotEmpty:         "the directory isn't empty",
	forecast.BelowNoDirectory: "what stands above is no directory",
	forecast.IsDirectory:      "a directory stands where a file is to be deleted",
	forecast.NotThere:         "nothing stands there to get the new time or mode",
	forecast.InvalidName:      "Windows can't have such a name",
	forecast.KeepsLocalChange: "it only receives, and keeps its own change",
	forecast.NotSeen:          "it has other bytes than recorded, which no scan sees, and may send them to a device that is added",
	forecast.IgnoresDeletions: "by the folder's option 'ignoreDelete' it takes no deletions",
}

// notKnown tells of how many names it isn't known what becomes of them, and why.
func (p *Person) notKnown(o *outlook.Outlook) {
	if o.NotKnown == 0 {
		return
	}
	p.Line("  of %s it isn't known what becomes of %s:", Counted(o.NotKnown, "name", "names"), itOrThem(o.NotKnown))
	for place := range o.Unknown {
		why := &o.Unknown[place]
		p.Line("    %s: %s", Counted(why.Names, "name", "names"), whyUnknown(why, p.Called.AsTheyStand(why.Devices)))
	}
}

// whyUnknown says why it isn't known what becomes of names, on which devices, and what makes it known.
func whyUnknown(of *outlook.Group, devices string) string {
	told := unknowns[of.Why].why
	switch {
	case devices != "" && of.Why == string(read.Absent): // those that are audited
		told += " with " + devices
	case devices != "":
		told += " (" + devices + ")"
	}
	if toKnow := unknowns[of.Why].toKnow; toKnow != "" && (devices != "" || of.Why != string(read.NeverTold)) {
		told += "; to know it, " + toKnow
	}
	return told
}

// unknowns say why it isn't known what becomes of a name, and what is to be done for it to be known. Of what is left out nobody can say that.
var unknowns = map[string]struct{ why, toKnow string }{
	"device-left-out":  {"a device that isn't audited shares the folder", "audit that device, too, or unshare the folder with it if it is gone for good"},
	"not-linked":       {"no way leads from one device to all others by those who share the folder with one another", "audit those who share the folder with both"},
	"over-the-wire":    {"a device was seen over the wire, which doesn't show the times, modes and directories of its disk", "make a part on the device"},
	"untried-version":  {"this version of Syncthing wasn't compared with the forecast", ""},
	"options-not-told": {"the part doesn't say which options the folder has; make it anew with this version, or with --config where disks were walked", "make the part anew with this version"},
	"paused":           {"the folder or a device is paused", "once what is to stay is saved, resume it, let it finish, and audit again"},
	"attributes":       {"owners or extended attributes are scanned, which the forecast leaves out", ""},
	"writers":          {"something else of Syncthing writes into the directory", ""},
	"another-index":    {"another index is known elsewhere, or the index is to be repaired", "once what is to stay is saved, start Syncthing on these devices, let them finish, and audit again"},
	"names-not-asked":  {"not all names of the folder were asked for", "audit the whole folder"},
	"left-out":         {"something of the name or of a directory above isn't audited", "see below why it is left out"},
	"in-motion":        {"it changed while it was looked at, or between two parts, or waits for a scan", "audit again once it is at rest"},
	"odd-name":         {"the name isn't in Unicode's form NFC, in which Syncthing has names", "rename it, and audit again"},
	"case":             {"another name differs from it by upper and lower case alone, and a disk takes both for one", "rename one of them, and audit again"},
	"linked":           {"it is one file with another name that isn't at rest (a hard link), so that a time which is set at one is set at both", "put a copy of the file, with its time, in the place of each but one of its names, and audit again"},
	"damaged":          {"a disk fails to give what it has", "see what the disk still gives, and audit again"},
	"never-told":       {"a device may never tell a change of it", "once what is to stay is saved, stop Syncthing there, and " + part.ResetDeltas + "; then let all finish, and audit again"},
	"conflict-copies":  {"it may come to have more conflict copies than are kept, and then the oldest go", ""},
	"same-bytes":       {"a device may take its bytes from another name that has the same", ""},
	"too-many":         {"more names differ than are looked at", "audit some of the names alone (--names), or mend the first ones and audit again"},
	"budget":           {"there are too many orders to try", ""},
	"no-end":           {"in some orders that were tried it came to no end", ""},
}
