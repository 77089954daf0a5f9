package summary

import (
	"time"

	"golang.org/x/exp/slices"
	"syncthing-audit/finding"
	"syncthing-audit/join"
	"syncthing-audit/part"
	"syncthing-audit/print"
	"syncthing-audit/shell"
)

// offOf gives the devices that share a folder, keep its files, and aren't audited in it.
func offOf(folder *finding.Folder) []part.Sharing {
	off := []part.Sharing{}
	for _, member := range folder.Members {
		if member.About == nil {
			continue
		}
		for _, other := range member.About.Sharing {
			isKnown := slices.IndexFunc(off, func(device part.Sharing) bool { return device.Device == other.Device }) >= 0
			isAsked := slices.IndexFunc(folder.Members, func(member join.Member) bool { return member.Head.Device == other.Device }) >= 0
			if !isAsked && !other.Encrypted && !isKnown {
				off = append(off, other)
			}
		}
	}
	return off
}

// nameOff names a device that isn't audited as others have it configured.
func nameOff(device part.Sharing) string {
	if device.Name == "" {
		return shortOf(device.Device)
	}
	return shell.Printable(device.Name)
}

// wordsOff names such devices for a person.
func wordsOff(off []part.Sharing) string {
	return print.Joined(off, ", ", nameOff)
}

// mayBeOff says that devices which aren't asked may have what no audited one has.
func mayBeOff(off []part.Sharing) string {
	switch len(off) {
	case 0:
		return ""
	case 1:
		return ". " + wordsOff(off) + " isn't asked, and may have it"
	}
	return ". " + wordsOff(off) + " aren't asked, and may have it"
}

// areOff says that devices which aren't asked share one of these folders.
func (s *Summary) areOff(folders []string) string {
	for _, id := range folders {
		if off := s.folder(id).off; len(off) > 0 {
			return ", and on " + wordsOff(off) + ", of which nothing is asked"
		}
	}
	return ""
}

// dueContent gives the bytes that were recorded and that no audited device has; nothing where they aren't known.
func (f *File) dueContent() *part.Content {
	for _, fault := range f.Faults {
		if f.isHarmOfDue(fault) && fault.due != nil && fault.due.Content != nil {
			return fault.due.Content
		}
	}
	return nil
}

// rememberOff says of files whose recorded bytes no audited device has, which devices that aren't asked had them when they were read last.
func (s *Summary) rememberOff() {
	if s.Since.Had == nil {
		return
	}
	for _, folder := range s.Folders {
		for _, file := range folder.Files {
			content := file.dueContent()
			if !file.isWithoutCopy() || content == nil {
				continue
			}
			advice := []string{}
			for _, held := range s.Since.Had(folder.ID, string(file.Name), *content) {
				advice = append(advice, s.adviceOff(folder, held.Device, held.Read))
			}
			file.Advice = append(advice, file.Advice...)
		}
	}
}

// adviceOff says what to do with a device that isn't asked and had what is wanted.
func (s *Summary) adviceOff(folder *Folder, device string, read time.Time) string {
	name := folder.nameOff(device)
	return "look on " + name + " first, before Syncthing starts there: " + name + " had what is recorded when it was read on " + dayOf(read, time.Local) + ", and isn't asked now. Copy it elsewhere from there"
}

// nameOff names a device of the folder that isn't asked.
func (f *Folder) nameOff(device string) string {
	for _, other := range f.off {
		if other.Device == device {
			return nameOff(other)
		}
	}
	return device
}
