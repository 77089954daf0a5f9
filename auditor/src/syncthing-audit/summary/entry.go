package summary

import (
	"fmt"

	"syncthing-audit/lists"
	"syncthing-audit/print"
	"syncthing-audit/shell"
)

// entries prints the entries of names, those in the greatest danger first, whatever their names.
func (p *printer) entries(s *Summary) {
	for danger := losesBytes; danger <= isSafe; danger++ {
		for _, folder := range s.Folders {
			for _, group := range folder.Groups {
				if group.of.danger() == danger {
					p.group(folder, group)
				}
			}
			p.files(folder, danger)
		}
	}
}

// files prints the entries of the names in such a danger. Many of which the very same is told are one entry: a disk that rots has many, and so has a device
// on which someone worked while Syncthing was off. --json tells each.
func (p *printer) files(folder *Folder, danger int) {
	for _, file := range folder.Files {
		switch group := file.among; {
		case file.danger() != danger:
		case group.Names <= mostAlone:
			p.file(folder, file)
		case file == group.files[0]:
			p.group(folder, group.tell(p.Called))
		}
	}
}

// file prints the entry of a name.
func (p *printer) file(folder *Folder, file *File) {
	about := "in " + folder.ID
	if file.Size > 0 {
		about += ", " + size(file.Size)
	}
	p.Line("\n%s  (%s)", shell.Path(string(file.Name)), about)
	for _, fault := range file.Faults {
		p.fault(fault)
	}
	p.renamed(file)
	p.entry(file, "")
}

// entry prints what is so of a name or of each of many, of which the first are told.
func (p *printer) entry(file *File, first string) {
	for _, same := range file.Same {
		p.Line("  the same other bytes on: %s", p.Called.All(same))
	}
	p.modes(file.Permissions)
	if first != "" {
		p.Line("  the first: %s", first)
	}
	p.have(file)
	if file.Foretold != "" {
		p.running("  if nothing is done:", file.Foretold+".")
	}
	p.advice(file.Advice)
}

// group prints names of which the very same is told as one entry.
func (p *printer) group(folder *Folder, group *Group) {
	unsized := ""
	if group.Unsized > 0 {
		unsized = ", without " + counted(group.Unsized, "name", "names") + " whose details weren't kept"
	}
	p.Line("\n%s in %s: %s%s", counted(group.Names, "name", "names"), folder.ID, size(group.Bytes), unsized)
	for place, fault := range group.of.Faults {
		faults := lists.Each(group.files, func(file *File) *Fault { return file.Faults[place] })
		p.Line("  %s: %s%s", p.Called(fault.Device), wordsOfFaults(faults, true), differingInAll(faults))
	}
	first := print.Joined(group.First, " ", func(name Text) string { return shell.Path(string(name)) })
	p.entry(group.of, fmt.Sprintf("%s, and %s more (--lines has all)", first, thousands(group.Names-int64(len(group.First)))))
}

// differingInAll says how many blocks differ in all names, where these have other bytes on a disk.
func differingInAll(faults []*Fault) string {
	if faults[0].Cause != OtherBytes {
		return ""
	}
	blocks := int64(0)
	for _, fault := range faults {
		if fault.Blocks != nil {
			blocks += fault.Blocks.Count
		}
	}
	return "; " + counted(blocks, "block differs", "blocks differ") + " in all (--json tells them)"
}

// fault prints what is wrong with a name on a device, and since when.
func (p *printer) fault(fault *Fault) {
	p.Line("  %s: %s%s", p.Called(fault.Device), wordsOfFaults([]*Fault{fault}, false), p.since(fault))
	if fault.isAlone() {
		p.Line("    the name wasn't compared with what other devices have: see below why")
	}
	if fault.Found != nil && fault.Found.Unread > 0 {
		p.Line("    its last %s weren't read: it is that much longer than any record, so it isn't what is recorded, and which devices have the same "+
			"bytes isn't known", size(fault.Found.Unread))
	}
	if fault.Blocks == nil || fault.Blocks.Of < 1 {
		return
	}
	p.Line("    %s (%s of %s of %d KiB; the first is block 0)", differing(fault.Blocks), thousands(fault.Blocks.Count),
		counted(fault.Blocks.Of, "block", "blocks"), fault.Blocks.Size>>10)
	if fault.Blocks.Recorded != "" && fault.Blocks.Found != "" {
		p.Line("    the first of them: SHA-256 %s.. recorded, %s.. on the disk", fault.Blocks.Recorded[:8], fault.Blocks.Found[:8])
	}
}

// have prints which devices have what is due, be it with another time. Nothing is due of a name without a winner, and of one without details it isn't known.
func (p *printer) have(file *File) {
	devices := p.Called.All(file.Have)
	switch {
	case len(file.Faults) == 0 || len(file.Have) == 0 && !file.hasDetails || file.isOfNobody():
	case len(file.Have) == 0:
		p.Line("  as recorded on: no audited device")
	case file.isDeletionDue():
		p.Line("  deleted on: %s", devices)
	case file.isOfAnotherTime:
		p.Line("  the recorded bytes on: %s", devices)
	default:
		p.Line("  as recorded on: %s", devices)
	}
}
