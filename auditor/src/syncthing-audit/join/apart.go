package join

import "syncthing-audit/part"

// split gives the folder; or, where each of its devices shares it with nobody, a folder for each: they have the id by chance, as that of
// the folder 'default' that Syncthing makes. There is nothing on another device with which such a folder could be in step or not. What its
// device's index and disk say is compared.
func (f *Folder) split() []*Folder {
	folders := []*Folder{}
	for _, member := range f.Members {
		if len(member.About.Sharing) > 0 {
			return []*Folder{f}
		}
		folders = append(folders, &Folder{ID: f.ID, Label: member.About.Label, Members: []Member{member}, Own: member.Head.Device})
	}
	return folders
}

// ByChance is the id of the folder that Syncthing makes on each device. Other ids it draws at random, so devices have one in common only
// where a person gave it to them.
const ByChance = "default"

// checkOwn leaves out the devices whose parts are without a folder that others share with nobody, where they may have it: they may share it
// with those.
func (p *Plan) checkOwn(folder *Folder) {
	for _, device := range p.Devices {
		if folder.Own != "" && device.Head.Folder(folder.ID) == nil && device.mayShare(folder.ID) && !p.IsLeftOut(folder.ID, device.Head.Device) {
			p.leaveOut(Refusal{Kind: part.Unshared, Folder: folder.ID, Label: folder.Label, Device: device.Head.Device, Name: device.Head.Name,
				Why: device.whyWithout(folder.ID) + "; " + folder.Members[0].Label() + " shares it with nobody"})
		}
	}
}

// IsLeftOut says whether a device is left out of a folder without being asked for.
func (p *Plan) IsLeftOut(folder, device string) bool {
	return p.isOut[placeOfFolder{folder, device}]
}

// placeOfFolder is a folder at a device.
type placeOfFolder struct{ folder, device string }

// leaveOut leaves a folder out at a device, without being asked for.
func (p *Plan) leaveOut(refusal Refusal) {
	p.LeftOut = append(p.LeftOut, refusal)
	p.isOut[placeOfFolder{refusal.Folder, refusal.Device}] = true
}

// mayShare says whether a device may share a folder that its part is without, as far as the part says that.
func (d *Device) mayShare(folder string) bool {
	if other := d.Head.Other(folder); other != nil {
		return len(other.Devices) > 0 || folder != ByChance
	}
	return d.Head.Others == nil
}

// checkApart takes out the devices whose folder has the id by chance, where others share theirs: Syncthing doesn't bring these together,
// so they aren't compared. What stays is the folder of most devices that are here. A device that shares its folder with nobody is left
// out. One that shares it with others is refused. Someone may think that these are one folder.
func (p *Plan) checkApart(folder *Folder) {
	together := folder.together()
	kept := []Member{}
	for _, member := range folder.Members {
		if together[member.Head.Device] {
			kept = append(kept, member)
		}
	}
	for _, member := range folder.Members {
		switch {
		case together[member.Head.Device]:
		case len(member.About.Sharing) == 0:
			p.leaveOut(Refusal{Kind: part.Unshared, Folder: folder.ID, Label: folder.Label, Device: member.Head.Device, Name: member.Head.Name,
				Why: "it shares its folder of this id with nobody: it is another folder than that of " + kept[0].Label()})
		default:
			p.refuse(part.Unshared, folder, member.Head.Device, member.Head.Name, "it doesn't share the folder with "+kept[0].Label()+
				", not even by way of others: its own is another folder of the same id")
		}
	}
	folder.Members = kept
}

// together gives the ids of devices that share the folder with one another, if only by way of others that needn't be here. Of
// several such groups it is the one of most members; of two with as many the one with the first member.
func (f *Folder) together() map[string]bool {
	var best map[string]bool
	most := 0
	for _, member := range f.Members {
		reached, members := map[string]bool{}, 0
		f.reach(member.Head.Device, reached)
		for _, other := range f.Members {
			if reached[other.Head.Device] {
				members++
			}
		}
		if members > most {
			best, most = reached, members
		}
	}
	return best
}

// reach adds a device and all that share the folder with it, in whichever direction and by way of whichever others.
func (f *Folder) reach(device string, reached map[string]bool) {
	if reached[device] {
		return
	}
	reached[device] = true
	for _, member := range f.Members {
		if member.Head.Device == device {
			for _, other := range member.About.Sharing {
				f.reach(other.Device, reached)
			}
		} else if sharesWith(member.About, device) {
			f.reach(member.Head.Device, reached)
		}
	}
}
