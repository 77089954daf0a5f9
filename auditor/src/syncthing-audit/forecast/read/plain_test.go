package read

import (
	"fmt"
	"strings"

	"golang.org/x/exp/slices"
	"syncthing-audit/damage"
	"syncthing-audit/join"
	"syncthing-audit/part"
)

// plain is what becomes of rows, read one by one.
type plain struct {
	folder  *join.Folder
	kept    map[string]*join.Row
	unknown map[string]Why
	count   map[Why]int64
	calm    map[string]bool
	damage  map[string][]damage.Kind
	risky   []string
	outs    []string
	copies  map[string]int
	resting []*join.Row // conflict copies at rest
}

// shares says whether a device shares the folder with another one.
func (p *plain) shares(one, other int) bool {
	for _, with := range p.folder.Members[one].About.Sharing {
		if with.Device == p.folder.Members[other].Head.Device {
			return true
		}
	}
	return false
}

// views gives the records that a device has of others, by these.
func (p *plain) views(row *join.Row, member int) map[int]*part.Record {
	known := map[int]*part.Record{}
	if row.At[member] != nil {
		for _, seen := range row.At[member].Views {
			for other, one := range p.folder.Members {
				if one.Head.Device == p.folder.Members[member].About.Views[seen.View].Device {
					known[other] = seen.Record
				}
			}
		}
	}
	return known
}

// isOdd says whether something of a name isn't known.
func isOdd(row *join.Row) bool {
	for _, at := range row.At {
		if at != nil && (len(at.Out) > 0 || len(at.Moved) > 0 || at.Disk != nil && (at.Disk.Unread > 0 || at.Disk.Lost != "")) {
			return true
		}
	}
	return len(row.Later) > 0
}

// rests says whether nothing happens to a name any more: all have one record, know that of each other, and have it on their disks.
func (p *plain) rests(row *join.Row) bool {
	owns, alike := map[int]*part.Record{}, map[string]bool{}
	note := func(of *part.Record) {
		content := part.Content{}
		if of.Content != nil {
			content = *of.Content
		}
		alike[fmt.Sprint(of.Deleted, of.Type, of.Target, of.Version, content, of.Invalid)] = !of.Invalid
	}
	things := 0
	var due *part.Record
	for member, at := range row.At {
		if at == nil {
			continue
		}
		if things += len(at.Views); at.Disk != nil {
			things++
		}
		if owns[member] = at.Own; at.Own != nil {
			note(at.Own)
			if due == nil {
				due = at.Own
			}
		}
	}
	if due == nil {
		return things == 0
	}
	for member, at := range row.At {
		known := p.views(row, member)
		for other := range row.At {
			if other != member && p.shares(member, other) {
				if (known[other] == nil) != (owns[other] == nil) {
					return false
				}
				if known[other] != nil {
					note(known[other])
				}
			}
		}
		isThere := at != nil && at.Disk != nil
		if isThere == due.Deleted || owns[member] == nil && !due.Deleted || isThere && !p.isOnDisk(member, due, owns[member], at.Disk) {
			return false
		}
	}
	for _, isValid := range alike {
		if !isValid || len(alike) > 1 {
			return false
		}
	}
	return true
}

// isOnDisk says whether what stands on a disk is as a record says, with the permissions that are due.
func (p *plain) isOnDisk(member int, due, own *part.Record, disk *part.Node) bool {
	if disk.Type != own.Type || disk.Target != own.Target {
		return false
	}
	if due.Permissions != nil && !p.folder.Members[member].About.IgnoresPermissions && (*due.Permissions^disk.Permissions)%0o1000 != 0 {
		return false
	}
	return own.Content == nil || own.Content.Size == disk.Size && own.ModifiedS == disk.ModifiedS && own.ModifiedNs == disk.ModifiedNs && len(disk.Contents) > 0 &&
		disk.Contents[0] == *own.Content
}

// isBelow says whether a name is below one of these.
func (p *plain) isBelow(names []string, name string) bool {
	return slices.IndexFunc(names, func(above string) bool { return strings.HasPrefix(name, above+"/") }) >= 0
}

// why says why it isn't known what comes of a name.
func (p *plain) why(row *join.Row) Why {
	if p.isBelow(p.outs, row.Name) {
		return LeftOut
	}
	if len(row.Later) > 0 {
		return Moving
	}
	for _, at := range row.At {
		if at == nil {
			continue
		}
		for _, out := range at.Out {
			if out.Kind == part.Damaged {
				return Damaged
			}
		}
		if at.Disk != nil && at.Disk.Lost+strings.Repeat("x", int(at.Disk.Unread)) != "" {
			return Damaged
		}
		if len(at.Out) > 0 {
			return LeftOut
		}
		if len(at.Moved) > 0 || at.Receiving != "" {
			return Moving
		}
	}
	for member, at := range row.At {
		if at == nil {
			continue
		}
		if own := at.Own; own != nil {
			if own.Invalid && own.Local == nil {
				return NeverTold
			}
			for knower, one := range p.folder.Members {
				for _, view := range one.About.Views {
					isHeard := view.Device == p.folder.Members[member].Head.Device && p.shares(knower, member) && (view.Max >= own.Sequence || view.Heard >= own.Sequence)
					seen := p.views(row, knower)[member]
					if isHeard && (seen == nil || seen.Invalid != own.Invalid || fmt.Sprint(seen.Version) != fmt.Sprint(own.Version)) {
						return NeverTold
					}
				}
			}
		}
	}
	return ""
}

// isDirectory says whether a name is a directory for all and everywhere.
func isDirectory(row *join.Row) bool {
	for _, at := range row.At {
		if at == nil || at.Disk == nil || at.Disk.Type != 1 {
			return false
		}
		for _, seen := range append([]part.Seen{{Record: at.Own}}, at.Views...) {
			if seen.Record != nil && (seen.Record.Type != 1 || seen.Record.Deleted) {
				return false
			}
		}
	}
	return true
}

// take takes a row.
func (p *plain) take(row *join.Row) {
	isOutside := true
	for _, at := range row.At {
		isOutside = isOutside && (at == nil || at.Own == nil && len(at.Views) == 0 && len(at.Out) > 0 && at.Out[0].Kind == part.Ignored)
	}
	isBelow, isCalm := p.isBelow(p.risky, row.Name), !isOdd(row) && p.rests(row)
	if !isBelow && isOutside {
		return
	}
	if isCalm && !isBelow {
		if name, _, is := strings.Cut(row.Name, ".sync-conflict-"); is {
			p.copies[name]++
			p.resting = append(p.resting, row)
		}
		return
	}
	why := p.why(row)
	for _, at := range row.At {
		if at != nil && len(at.Out) > 0 {
			p.outs = append(p.outs, row.Name)
		}
	}
	if why == LeftOut {
		p.count[LeftOut]++
		for _, above := range p.risky {
			if p.isBelow([]string{above}, row.Name) {
				p.unknown[above] = LeftOut
			}
		}
		return
	}
	p.kept[row.Name] = row
	if why != "" {
		p.unknown[row.Name] = why
	}
	if isCalm {
		p.calm[row.Name] = true
	}
	if why != "" || !isDirectory(row) {
		p.risky = append(p.risky, row.Name)
	}
	for member, at := range row.At {
		if at != nil && damage.Of(at.Own, at.Disk) != damage.None {
			if p.damage[row.Name] == nil {
				p.damage[row.Name] = make([]damage.Kind, len(row.At))
			}
			p.damage[row.Name][member] = damage.Of(at.Own, at.Disk)
		}
	}
}

// end notes the names that may come to have more copies than are kept.
func (p *plain) end() {
	for name := range p.kept {
		if p.mayDrop(name) && p.unknown[name] == "" {
			p.unknown[name] = Copies
		}
	}
	for _, row := range p.resting {
		if name, _, _ := strings.Cut(row.Name, ".sync-conflict-"); p.kept[name] != nil && p.mayDrop(name) {
			p.kept[row.Name], p.unknown[row.Name], p.calm[row.Name] = row, Copies, true
		}
	}
}

// mayDrop says whether a device may come to have more copies of a name than it keeps.
func (p *plain) mayDrop(name string) bool {
	for _, member := range p.folder.Members {
		if most := member.Head.Folders[0].Options.MaxConflicts; p.copies[name] > 0 && most >= 0 && p.copies[name]+len(p.folder.Members) > most {
			return true
		}
	}
	return false
}
