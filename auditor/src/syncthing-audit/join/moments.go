package join

import (
	"fmt"

	"syncthing-audit/part"
)

// checkMoments finds the parts that are of an earlier moment than others: another device knows of later changes of its index. The names that changed
// since are in motion (IsLater). All others are as in parts of one moment: of them no device knows more than the other one's part has, and names are
// judged apart. What a device that is asked over the wire knows of others is taken from their parts, so which names these are isn't known there: the
// earlier device is taken out.
func (p *Plan) checkMoments(folder *Folder) {
	for knower := range folder.Members {
		p.checkMomentsOf(folder, &folder.Members[knower])
	}
	folder.takeOut(func(member Member) bool { return folder.isEarlierThanWire[member.Head.Device] })
}

// checkMomentsOf finds of which devices a member knows later changes than their parts have.
func (p *Plan) checkMomentsOf(folder *Folder, knower *Member) {
	for place, view := range knower.About.Views {
		at := folder.Member(view.Device)
		if at < 0 || view.IndexID != folder.Members[at].About.IndexID || view.Max <= folder.Members[at].About.Max {
			continue
		}
		other := folder.Members[at]
		found := Refusal{Kind: part.Moment, Folder: folder.ID, Label: folder.Label, Device: other.Head.Device, Name: other.Head.Name, WentBack: wentBack(other.Device, knower.Device)}
		found.Why = fmt.Sprintf(whyEarlier(&other, found.WentBack), knower.From, view.Max, other.About.Max)
		if knower.Head.IsOverWire() {
			if !folder.isEarlierThanWire[other.Head.Device] {
				p.Refusals = append(p.Refusals, found)
			}
			folder.isEarlierThanWire = with(folder.isEarlierThanWire, other.Head.Device)
			continue
		}
		p.Earlier = append(p.Earlier, found)
		folder.isEarlier = with(folder.isEarlier, other.Head.Device)
		folder.hasGoneBack = folder.hasGoneBack || found.WentBack
		knower.clip(place, other.About.Max)
	}
}

// with adds a device to a set, which may be nothing.
func with(devices map[string]bool, device string) map[string]bool {
	if devices == nil {
		devices = map[string]bool{}
	}
	devices[device] = true
	return devices
}

// clip has a view go as far as the index that is here: that is how far it goes for all names that are compared.
func (m *Member) clip(place int, most int64) {
	about := *m.About
	about.Views = append([]part.View(nil), about.Views...)
	about.Views[place].Max = most
	m.About = &about
}

// wentBack says whether a device's index went back since another device heard of it, as far as the times of both tell. A home is read now, and so no
// earlier than anything else.
func wentBack(device, knower *Device) bool {
	return device.Head.Look != nil || device.IsHome || !device.Head.Made.Before(knower.Head.Made)
}

// whyEarlier says why a part can't be of the moment of another one.
func whyEarlier(of *Member, wentBack bool) string {
	switch {
	case of.Head.IsOverWire():
		return "%s says that it knows of its change %d, and over the wire it says later itself that its last one is %d. Either that isn't so, or its index went back, as " +
			"after an older home was put in its place there. Then Syncthing doesn't tell such changes again by itself: stop it there, and " + part.ResetDeltas
	case of.Head.Look != nil:
		return "%s knew of its change %d at its first look, and at this one's second look, which came later, its last one is %d: " +
			"was an older home put in its place, or a copy looked at?"
	case wentBack:
		return "%s knows of its change %d, and here, where it was read no earlier, its last one is %d: its index went back, as after an older home was put in its place, " +
			"or a copy of an older one was read"
	}
	return "it is of an earlier moment than %s, which knows of its change %d, and here its last one is %d. To compare all names, stop both devices, and make " +
		"the part of this one anew"
}

// HasGoneBack says whether the index of a device went back: it isn't only that its part was made first.
func (f *Folder) HasGoneBack() bool { return f.hasGoneBack }

// IsOfOneMoment says whether no device knows more of another one than that one's part has.
func (f *Folder) IsOfOneMoment() bool { return len(f.isEarlier) == 0 }

// addLater finds the members at which a name changed after their parts were made, by what others know of them.
func (f *Folder) addLater(row *Row) {
	if f.IsOfOneMoment() {
		return
	}
	isLater := map[int]bool{}
	for knower, at := range row.At {
		if at == nil {
			continue
		}
		for _, seen := range at.Views {
			view := f.Members[knower].About.Views[seen.View]
			of := f.Member(view.Device)
			if of >= 0 && view.IndexID == f.Members[of].About.IndexID && seen.Sequence() > f.Members[of].About.Max {
				isLater[of] = true
			}
		}
	}
	for member := range row.At {
		if isLater[member] {
			row.Later = append(row.Later, member)
		}
	}
}
