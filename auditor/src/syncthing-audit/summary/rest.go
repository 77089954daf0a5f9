package summary

import (
	"strings"
	"time"

	"syncthing-audit/finding"
	"syncthing-audit/lists"
	"syncthing-audit/part"
	"syncthing-audit/print"
	"syncthing-audit/shell"
)

// rest prints what was left out, not asked for or not compared.
func (p *printer) rest(s *Summary) {
	p.Line("")
	for _, folder := range s.Folders {
		p.moving(folder)
		p.unsure(folder)
		p.copies(folder)
		p.leftOut(folder)
		if folder.IsOut {
			p.Line("by itself: %s on %s, which is left out of what is compared: what stands on its disk was compared with its own index alone", folder.ID, p.Called.All(devicesIn(folder)))
		} else if len(folder.Devices) < 2 && !folder.Own {
			p.Line("alone: %s is audited on one device, so there is nothing to compare it with", folder.ID)
		}
	}
	p.members(s)
	for _, left := range s.LeftOut {
		p.Line("left out: %s: %s", called(left), left.Why)
	}
	for _, left := range s.Earlier {
		p.Line("of another moment: %s of %s: %s", shell.Folder(left.Folder, left.Label), left.Device, left.Why)
	}
	for _, observer := range s.Observers {
		p.Line("not asked: %s, an observer: it shares %s, keeps no files of it, and sends no records", nameOfObserver(observer), observer.Folder)
	}
	p.notAsked(s)
	p.otherNames(s)
	p.doubts(s)
	p.wentBack(s)
	p.devices(s)
	p.Line("not compared: %s", strings.Join(s.NotCompared, ", "))
}

// eachMember gives each device of each folder.
func (s *Summary) eachMember(take func(folder *Folder, member *Member)) {
	for _, folder := range s.Folders {
		for place := range folder.Devices {
			take(folder, &folder.Devices[place])
		}
	}
}

// ofMembers prints something of members of folders, each text once with all devices of which it is told.
func (p *printer) ofMembers(s *Summary, format string, tell func(folder *Folder, member *Member) []string) {
	told := print.Places{}
	s.eachMember(func(folder *Folder, member *Member) {
		for _, text := range tell(folder, member) {
			told.Add(text, member.Device)
		}
	})
	told.Each(p.Called, func(text, devices string) { p.Line(format, text, devices) })
}

// folderIf names a folder of which something is so.
func folderIf(is bool, folder *Folder, more string) []string {
	if !is {
		return nil
	}
	return []string{shell.Folder(folder.ID, folder.Label) + more}
}

// members prints what is so of folders on devices: how many names Syncthing takes for its temporary files, some of which may be a user's own. Which folders are
// shared with nobody: no other device was asked about these. Which folders and devices are paused where, and what Syncthing says there. And of how many files
// it takes another time for the recorded one.
func (p *printer) members(s *Summary) {
	p.ofMembers(s, "outside %s on %s, which Syncthing takes for its temporary files ('.syncthing.*', '~syncthing~*'): it never sends such names, "+
		"and its scans delete such files once they are a day old, or as 'keepTemporariesH' says", func(folder *Folder, member *Member) []string {
		if member.Temporary == nil {
			return nil
		}
		return []string{folder.ID + ": " + counted(member.Temporary.Names, "name", "names") + ", " + size(member.Temporary.Bytes)}
	})
	p.ofMembers(s, "shared with no device: %s on %s: what stands on the disk was compared with the device's own index alone",
		func(folder *Folder, _ *Member) []string { return folderIf(folder.Own && !folder.isApart, folder, "") })
	p.ofMembers(s, "not shared with one another: %s on %s: each has a folder of this id, and shares it with no device. What stands on its disk was "+
		"compared with its own index alone, and not with what the others have",
		func(folder *Folder, _ *Member) []string { return folderIf(folder.isApart, folder, "") })
	p.ofMembers(s, "paused: folder %s on %s", func(folder *Folder, member *Member) []string { return folderIf(member.Paused, folder, "") })
	p.ofMembers(s, "paused: device %s on %s", func(_ *Folder, member *Member) []string { return p.Called.Each(member.PausedDevices) })
	p.stopped(s)
	p.asked(s)
	p.ofMembers(s, "times taken for the same: in %s on %s: the time on the disk isn't the recorded one, and no scan there sees that (modTimeWindowS)",
		func(folder *Folder, member *Member) []string {
			return folderIf(member.Near > 0, folder, " "+counted(member.Near, "file", "files")+", by less than "+counted(member.Window, "second", "seconds")+",")
		})
}

// ofDevices prints something of devices, of each what is told behind its name; nothing where it is told of none.
func (p *printer) ofDevices(s *Summary, format string, tell func(device *Device) (text string, is bool), more ...interface{}) {
	told := []string{}
	for place := range s.Devices {
		if text, is := tell(&s.Devices[place]); is {
			told = append(told, p.Called(s.Devices[place].ID)+text)
		}
	}
	if len(told) > 0 {
		p.Line(format, append([]interface{}{strings.Join(told, ", ")}, more...)...)
	}
}

// mostAge is how long ago a device may have been read without that being told.
const mostAge = 24 * time.Hour

// devices tells which devices were read long ago: parts can be of one moment by all indexes while bytes on a disk have changed since by themselves. It tells
// whose parts anybody may have made who could write them, and which devices have another version of Syncthing than those with which this program was tried.
func (p *printer) devices(s *Summary) {
	p.ofDevices(s, "read more than a day ago: %s; what changed on a disk since isn't seen", func(device *Device) (string, bool) {
		return " " + p.When(device.Read), p.now.Sub(device.Read) > mostAge
	})
	p.ofDevices(s, "read in a time that is still to come, by the device's clock: %s; how long ago that was isn't known", func(device *Device) (string, bool) {
		return " " + p.When(device.Read), !p.now.IsZero() && device.Read.Sub(p.now) > part.MostAhead
	})
	unsigned := lists.Where(s.Devices, func(device Device) bool { return device.IsUnsigned })
	p.ofDevices(s, "not signed: "+counted(int64(len(unsigned)), "part", "parts")+" of %s. No signature was checked, so whoever could write a part may have said this for its device (--allowed-signers FILE checks)",
		func(device *Device) (string, bool) { return "", device.IsUnsigned })
	p.ofDevices(s, "not tried with such a Syncthing: %s; it was with %s", func(device *Device) (string, bool) {
		isTried := lists.Has(tried, func(version string) bool { return strings.HasPrefix(device.Runs, "v"+version+".") })
		return " " + shell.Printable(device.Runs), device.Runs != "" && !isTried
	}, strings.Join(tried, " and "))
}

// tried are the versions of Syncthing with which this program was tried.
var tried = []string{"1.19", "1.29"}

// doubts tells of which devices another index may have been read than Syncthing's present one, or one with a fault.
func (p *printer) doubts(s *Summary) {
	for _, device := range s.Devices {
		if device.Index != nil {
			p.Line("maybe an old index: that of %s was written last %s, and config.xml there after that, %s. If Syncthing was started there since then, it "+
				"has its database elsewhere, and this answer isn't about that: name it as --data DIR. If config.xml was only edited, all is well",
				p.Called(device.ID), p.When(device.Index.Written), p.When(device.Index.Configured))
		}
		if device.Newer != nil {
			p.Line("maybe an old index: that of %s was written last %s, and %s there after that, %s. %s", p.Called(device.ID), p.When(device.Newer.Read),
				device.Newer.Called(), p.When(device.Newer.Written), device.Newer.WhatToDo())
		}
		if device.Repair {
			p.Line("to be repaired: the index of %s. Syncthing found a fault in it, and repairs it at its next start. Till then it may not take or tell what it "+
				"should there, whatever its page shows, and records may be missing here. Start it there, let it finish, and audit again", p.Called(device.ID))
		}
	}
}

// copies prints the conflict copies that lie about.
func (p *printer) copies(folder *Folder) {
	if len(folder.Copies) == 0 {
		return
	}
	count, bytes, has := int64(len(folder.Copies))+folder.More.Names, folder.More.Bytes, "all"
	for _, conflict := range folder.Copies {
		bytes += conflict.Bytes
	}
	if folder.More.Names > 0 {
		has = "the first " + thousands(int64(len(folder.Copies)))
	}
	p.Line("%s in %s, %s: compare each with its file, and keep what you want of both", counted(count, "conflict copy", "conflict copies"),
		folder.ID, size(bytes))
	listed(p, mostOfList, count, folder.Copies, "--json has "+has, func(conflict finding.Conflict) string { return shell.Path(string(conflict.Name)) })
}

// mostOfList is how many names of a list are told, one by one.
const mostOfList = 10

// listed prints the first of so many, and how many more there are, if any, and where they are.
func listed[Item any](p *printer, most int, count int64, all []Item, where string, say func(Item) string) {
	told := lists.AtMost(most, all)
	for _, item := range told {
		p.Line("  %s", say(item))
	}
	if more := count - int64(len(told)); more > 0 {
		p.Line("  and %s more (%s)", thousands(more), where)
	}
}

// leftOut prints the names of a folder that were left out, by kind, and those outside it.
func (p *printer) leftOut(folder *Folder) {
	if len(folder.LeftOut) > 0 {
		names, bytes := folder.MoreOut.Names, folder.MoreOut.Bytes
		for _, left := range folder.LeftOut {
			names += left.Names
			bytes += left.Bytes
		}
		p.Line("left out of %s: %s, %s", folder.ID, counted(names, "name", "names"), size(bytes))
		p.leftByReasons(folder.LeftOut)
		if folder.MoreOut.Names > 0 {
			p.Line("  and %s more, %s", counted(folder.MoreOut.Names, "name", "names"), size(folder.MoreOut.Bytes))
		}
	}
	if folder.Ignored.Names > 0 {
		p.Line("outside %s: %s, %s, which .stignore keeps out on each device that has them", folder.ID,
			counted(folder.Ignored.Names, "name", "names"), size(folder.Ignored.Bytes))
	}
}

// mostLeft is how many names that were left out for the same on the same devices are told one by one.
const mostLeft = 5

// leftByReasons prints names that were left out: of those for the same on the same devices the first ones.
func (p *printer) leftByReasons(all []*finding.LeftOut) {
	told, more := map[string]int{}, lists.Grouped[string, finding.Count]{}
	for _, names := range all {
		key := p.kindsOf(names)
		if told[key]++; told[key] <= mostLeft {
			p.left(names)
		} else {
			more.Of(key).Add(names.Names, names.Bytes)
		}
	}
	for _, key := range more.Keys {
		p.Line("  and %s more, %s: %s (--lines has them)", counted(more.Of(key).Names, "name", "names"), size(more.Of(key).Bytes), key)
	}
}

// kindsOf says for what a name was left out, on which devices.
func (p *printer) kindsOf(names *finding.LeftOut) string {
	return p.byDevices(names.Why, func(why finding.Reason) string { return why.Kind }, func(kind, devices string) string {
		if devices != "" {
			kind += " on " + devices
		}
		return kind
	})
}

// byDevices gives reasons as texts, each once with the devices at which it is.
func (p *printer) byDevices(all []finding.Reason, text func(finding.Reason) string, say func(text, devices string) string) string {
	reasons := print.Places{}
	for _, why := range all {
		reasons.Add(text(why), why.Device)
	}
	return reasons.Joined(p.Called, say)
}

// left prints a name that was left out.
func (p *printer) left(names *finding.LeftOut) {
	name := shell.Path(string(names.Name))
	if names.Below {
		name += " and all below it (" + counted(names.Names, "name", "names") + ")"
	}
	p.Line("  %s, %s: %s", name, size(names.Bytes), p.byDevices(names.Why, func(why finding.Reason) string { return why.Why }, func(why, devices string) string {
		if devices != "" {
			why = devices + ": " + why
		}
		return why
	}))
}

// stopped prints on which devices, of those that were looked at twice, no Syncthing ran.
func (p *printer) stopped(s *Summary) {
	p.ofDevices(s, "not running: Syncthing on %s", func(device *Device) (string, bool) {
		isStopped := func(member Member) bool { return member.Device == device.ID && member.Rest == part.RestStopped }
		folders := lists.Where(s.Folders, func(folder *Folder) bool { return lists.Has(folder.Devices, isStopped) })
		return " (" + print.Joined(folders, ", ", func(folder *Folder) string { return folder.ID }) + ")", len(folders) > 0
	})
}
