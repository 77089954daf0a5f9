package join

import "syncthing-audit/part"

// unopened adds what an observer says of a folder that it couldn't open at a device or, where none looked, how it can be read.
func (p *Plan) unopened(folder, device string) string {
	why := p.unreached[device]
	if here := p.device(device); here != nil && here.Head.WhyWithout(folder) != nil {
		why = here.whyUnseen(folder)
	}
	if why == "" {
		why = "'observe' with --passwords reads it"
	}
	return ": " + why
}

// takeOutEncrypted refuses the devices on which a folder is encrypted, each once, and takes them out: they have other names and other bytes
// than the others, which have the same and are audited. One that was read with the folder's password has the same. It gives the ids of those that it
// takes out.
func (p *Plan) takeOutEncrypted(folder *Folder) map[string]bool {
	encrypted := map[string]bool{}
	opened := map[string]bool{}
	for _, member := range folder.Members {
		opened[member.Head.Device] = member.About.IsOpened
	}
	takeOut := func(device, name, why string) {
		if !encrypted[device] && !opened[device] {
			encrypted[device] = true
			p.refuse(part.Encrypted, folder, device, name, why+p.unopened(folder.ID, device))
		}
	}
	for _, member := range folder.Members {
		if member.About.Kind == part.KindEncrypted {
			takeOut(member.Head.Device, member.Head.Name, "the folder is encrypted there")
		}
	}
	for _, member := range folder.Members {
		for _, other := range member.About.Sharing {
			if other.Encrypted && folder.Member(other.Device) < 0 {
				takeOut(other.Device, other.Name, sharedEncrypted+member.Label())
			}
		}
	}
	folder.takeOut(func(member Member) bool { return encrypted[member.Head.Device] })
	before := append([]Member{}, folder.Members...)
	p.partBy(part.Encrypted, folder, p.atOddsOnEncryption)
	for _, member := range before {
		encrypted[member.Head.Device] = encrypted[member.Head.Device] || folder.Member(member.Head.Device) < 0
	}
	return encrypted
}

const sharedEncrypted = "the folder is shared encrypted with it by "

// eitherIsRight says that of two devices that are at odds either may be the one that is wrong: where most say the same, too.
const eitherIsRight = ": which of the two is right isn't known"

// atOddsOnEncryption gives the members of which one says that it shares the folder encrypted with another that says of itself that it isn't encrypted
// there: one device's word alone takes out no other.
func (p *Plan) atOddsOnEncryption(folder *Folder) []odds {
	found := []odds{}
	for _, member := range folder.Members {
		for _, other := range member.About.Sharing {
			if at := folder.Member(other.Device); other.Encrypted && at >= 0 && !folder.Members[at].About.IsOpened {
				found = append(found, odds{other.Device, member.Head.Device, sharedEncrypted + member.Label() + ", by that one's word, and isn't encrypted there by its own" + eitherIsRight,
					"it says that it shares the folder encrypted with " + folder.Members[at].Label() + ", and by that one's word it isn't encrypted there" + eitherIsRight})
			}
		}
	}
	return found
}
