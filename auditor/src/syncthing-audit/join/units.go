package join

import (
	"golang.org/x/exp/slices"
	"syncthing-audit/part"
)

// takeOut takes members out of a folder.
func (f *Folder) takeOut(is func(member Member) bool) {
	kept := []Member{}
	for _, member := range f.Members {
		if !is(member) {
			kept = append(kept, member)
		}
	}
	f.Members = kept
}

// outOf gives a folder for each member that was taken out: what others say takes a device out, and hides not what its own index and disk say. One that
// says of itself that the folder is encrypted there isn't read, nor is a folder that no document has.
func (f *Folder) outOf(members []Member) []*Folder {
	all := []*Folder{}
	for _, member := range members {
		id := member.Head.Device
		if f.Member(id) < 0 && member.About.Kind != part.KindEncrypted {
			all = append(all, &Folder{ID: f.ID, Label: member.About.Label, Members: []Member{member}, Own: id, IsOut: true})
		}
	}
	return all
}

// odds are two members that can't both be audited, by the one's fault as it seems.
type odds struct {
	one, other       string // their ids
	whyOne, whyOther string // why either is out without the other one
}

// partBy leaves out members until no two of them are at odds: the one that is at odds with most; of these the one that shares the folder with fewest;
// and of these the one at fault. So as many as can be are compared.
func (p *Plan) partBy(kind string, folder *Folder, oddsOf func(*Folder) []odds) {
	for all := oddsOf(folder); len(all) > 0; all = oddsOf(folder) {
		count := map[string]int{}
		for _, odds := range all {
			count[odds.one]++
			count[odds.other]++
		}
		out := all[0].one
		for _, pair := range all {
			for _, next := range []string{pair.one, pair.other} {
				if count[next] > count[out] || count[next] == count[out] && folder.links(next) < folder.links(out) {
					out = next
				}
			}
		}
		at := slices.IndexFunc(all, func(pair odds) bool { return pair.one == out || pair.other == out })
		why := all[at].whyOther
		if all[at].one == out {
			why = all[at].whyOne
		}
		p.refuse(kind, folder, out, p.device(out).Head.Name, why)
		folder.takeOut(func(member Member) bool { return member.Head.Device == out })
	}
}

// links counts the members with which a member shares the folder, and which share it with that one.
func (f *Folder) links(device string) int {
	count, at := 0, f.Member(device)
	for _, other := range f.Members {
		if other.Head.Device != device && sharesWith(f.Members[at].About, other.Head.Device) && sharesWith(other.About, device) {
			count++
		}
	}
	return count
}

// oneWay gives the members of which one shares the folder with another that doesn't share it back.
func oneWay(folder *Folder) []odds {
	found := []odds{}
	for _, member := range folder.Members {
		for _, other := range folder.Members {
			if sharesWith(member.About, other.Head.Device) && !sharesWith(other.About, member.Head.Device) && member.Device != other.Device {
				found = append(found, odds{other.Head.Device, member.Head.Device,
					"it doesn't share the folder with " + member.Label() + ", which shares it with this one",
					"it shares the folder with " + other.Label() + ", which doesn't share it with this one"})
			}
		}
	}
	return found
}

// whyAbsent says why there is no part of a device.
func (p *Plan) whyAbsent(device string) string {
	if why := p.unreached[device]; why != "" {
		return why
	}
	if slices.IndexFunc(p.Devices, func(device *Device) bool { return !device.Head.IsOverWire() }) < 0 { // 'observe' has no --observer, and needs none
		return "it shares the folder, and isn't among the devices that were asked (" + device + ")"
	}
	given := "no home or part of it is given"
	if p.unreached[""] != "" { // it may be that one's
		given = "no home or part that could be read is its own"
	}
	return "it shares the folder, and " + given + " (" + device + "). If it is an observer, which keeps no files, give --observer and this id"
}

// checkSharing leaves out the devices without a part, those whose parts are without the folder, and those that one device shares it with and that don't
// share it back. Of those on which it is encrypted, and of those that are left out already, it says nothing.
func (p *Plan) checkSharing(folder *Folder, told map[string]bool) {
	for _, member := range folder.Members {
		for _, other := range member.About.Sharing {
			if folder.Member(other.Device) >= 0 || told[other.Device] || p.IsLeftOut(folder.ID, other.Device) {
				continue
			}
			told[other.Device] = true
			if here := p.device(other.Device); here != nil {
				p.refuse(here.kindWithout(folder.ID), folder, other.Device, other.Name, here.whyWithout(folder.ID)+"; "+member.Label()+" shares it with this one")
			} else {
				p.refuse(part.Absent, folder, other.Device, other.Name, p.whyAbsent(other.Device))
			}
		}
	}
	p.partBy(part.Unshared, folder, oneWay)
}
