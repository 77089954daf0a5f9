package join

import (
	"fmt"
	"sort"

	"golang.org/x/exp/slices"
	"syncthing-audit/limits"
	"syncthing-audit/part"
)

// Refusal is why something isn't audited.
type Refusal struct {
	Kind   string
	Folder string
	Label  string // of the folder
	Device string // its id, or nothing
	Name   string // what the device is called by those who know it
	Why    string

	WentBack bool // whether the device's index is older than what was read before of another one, which knows of later changes
}

// Plan is what is audited: folders, rising by id, with their devices.
type Plan struct {
	Devices  []*Device // their numbers rising
	Folders  []*Folder
	Refusals []Refusal // what isn't audited: it is left out, or refused by a strict audit
	LeftOut  []Refusal // what is left out of a strict audit, too
	Earlier  []Refusal // the parts of an earlier moment than others: names that changed since are in motion
	IsByName bool      // whether the folders were asked for by their ids

	isOut     map[placeOfFolder]bool // of what is left out
	unreached map[string]string      // why devices have no part, by their ids
	Observers []Observer             // that devices name; a device that was asked over the wire names none
}

// NewPlan says what is to be audited of these devices: the folders that are wanted, or all. Of what the refusals name, and of
// what is left out, the devices and folders aren't in it. Observers are known by their ids, or by the parts that they made.
func NewPlan(devices []*Device, wanted []string, known ...string) (*Plan, error) {
	return NewPlanWithout(nil, devices, wanted, known...)
}

// NewPlanWithout says the same where devices weren't reached, of which it is known why.
func NewPlanWithout(unreached map[string]string, devices []*Device, wanted []string, known ...string) (*Plan, error) {
	observers := takeOutObservers(devices, known)
	sort.Slice(devices, func(a, b int) bool { return devices[a].Number < devices[b].Number })
	if err := checkDevices(devices); err != nil {
		return nil, err
	}
	if err := checkLooks(devices); err != nil {
		return nil, err
	}
	ids, err := chosen(devices, wanted)
	if err != nil {
		return nil, err
	}
	plan := &Plan{Devices: devices, IsByName: len(wanted) > 0, isOut: map[placeOfFolder]bool{}, unreached: unreached, Observers: observers}
	plan.leaveOutAway(wanted)
	for _, id := range ids {
		for _, folder := range plan.foldersOf(id) {
			plan.checkOwn(folder)
			plan.Folders = append(plan.Folders, plan.check(folder)...)
		}
	}
	has := plan.places()
	for _, device := range devices {
		id := device.Head.Device
		device.Choose(func(folder string) bool { return has[placeOfFolder{folder, id}] })
	}
	return plan, checkDirectories(plan.Folders)
}

// places gives where folders are audited.
func (p *Plan) places() map[placeOfFolder]bool {
	all := map[placeOfFolder]bool{}
	for _, folder := range p.Folders {
		for _, member := range folder.Members {
			all[placeOfFolder{folder.ID, member.Head.Device}] = true
		}
	}
	return all
}

// checkDevices says whether two parts are one device's, or were made with other names.
func checkDevices(devices []*Device) error {
	for place := 1; place < len(devices); place++ {
		device, other := devices[place-1], devices[place]
		if device.Head.Device == other.Head.Device {
			return fmt.Errorf("refused: %s and %s are both of %s: give one of them", device.From, other.From, device.Label())
		}
		if device.Number == other.Number {
			return fmt.Errorf("refused: %s and %s are of one device number, %d", device.From, other.From, device.Number)
		}
		if device.Head.Names != other.Head.Names {
			return fmt.Errorf("refused: %s has %s, and %s has %s: make all parts with the same %s",
				device.From, device.Head.Names.Words(), other.From, other.Head.Names.Words(), device.Head.Unlike(other.Head.Names))
		}
	}
	return nil
}

// chosen gives the ids of the folders to audit, rising.
func chosen(devices []*Device, wanted []string) ([]string, error) {
	there := map[string]string{}
	for _, device := range devices {
		for _, folder := range device.Head.Folders {
			if there[folder.ID] == "" {
				there[folder.ID] = folder.Label
			}
		}
	}
	if err := CheckWanted(there, wanted); err != nil {
		return nil, fmt.Errorf("refused: %w", err)
	}
	ids := []string{}
	for id := range there {
		if len(wanted) == 0 || slices.Contains(wanted, id) {
			ids = append(ids, id)
		}
	}
	sort.Strings(ids)
	return ids, nil
}

// foldersOf gives the folder of an id with its devices, or each device's own.
func (p *Plan) foldersOf(id string) []*Folder {
	folder := &Folder{ID: id}
	for _, device := range p.Devices {
		if about := device.Head.Folder(id); about != nil {
			folder.Members = append(folder.Members, Member{Device: device.in(about), About: about})
			if folder.Label == "" {
				folder.Label = about.Label
			}
		}
	}
	return folder.split()
}

// check leaves out what can't be audited of a folder, and gives what is: the devices that are compared, and by itself each one that is out.
func (p *Plan) check(folder *Folder) []*Folder {
	before, members, audited := len(p.Refusals), folder.Members, []*Folder{}
	p.checkWhole(folder)
	if len(p.Refusals) > before {
		return audited
	}
	if encrypted := p.takeOutEncrypted(folder); len(folder.Members) > 0 {
		p.checkApart(folder)
		p.checkSharing(folder, encrypted)
		p.partBy(part.Moment, folder, outOfOrder)
		p.checkMoments(folder)
	}
	if len(folder.Members) > 0 {
		audited = append(audited, folder)
	}
	return append(audited, folder.outOf(members)...)
}

// refuse adds a refusal.
func (p *Plan) refuse(kind string, folder *Folder, device, name, why string) {
	p.Refusals = append(p.Refusals, Refusal{Kind: kind, Folder: folder.ID, Label: folder.Label, Device: device, Name: name, Why: why})
}

// checkWhole refuses a folder that no row has.
func (p *Plan) checkWhole(folder *Folder) {
	if !limits.IsFolderID(folder.ID) {
		p.refuse(part.OddName, folder, "", "", "its id isn't 1 to 64 ASCII letters, digits, '-' and '_'")
	}
	if len(folder.Members) > limits.MostDevices {
		p.refuse(part.Large, folder, "", "", fmt.Sprintf("%d devices, at most %d go into a document", len(folder.Members), limits.MostDevices))
	}
}

// device gives the device with this id, if a part of it is here.
func (p *Plan) device(id string) *Device {
	for _, device := range p.Devices {
		if device.Head.Device == id {
			return device
		}
	}
	return nil
}

// whyWithout says why a device's part hasn't a folder, as far as the part says that.
func (d *Device) whyWithout(folder string) string {
	if d.Head.IsOverWire() {
		return d.whyUnseen(folder)
	}
	if d.Head.Other(folder) != nil {
		return "its part is without the folder: make it without --folder, or with it for this one, too"
	}
	if d.Head.Others == nil {
		return "it doesn't share the folder, or its part is without it"
	}
	return "it doesn't share the folder"
}

// sharesWith says whether a folder is shared with this device.
func sharesWith(about *part.Folder, device string) bool {
	for _, sharing := range about.Sharing {
		if sharing.Device == device {
			return true
		}
	}
	return false
}

// behind gives a path to stand behind a word; nothing where a part doesn't tell it.
func behind(path string) string {
	if path == "" {
		return ""
	}
	return " " + path
}

// checkDirectories refuses two devices that have one and the same directory, be it for one folder or for two. The
// config.xml of a copied home names a path of the other machine. On this machine a folder of its own device may well stand
// there. Its bytes would be read as those of both devices. Two devices that differ would then be called settled.
//
// A directory inside another device's is no such mistake: a copy may be kept inside a folder, and no name of a folder then
// stands for one file at both. Nor are two folders of one device in one directory, which Syncthing allows.
func checkDirectories(folders []*Folder) error {
	type owner struct {
		Member
		folder string
	}
	seen := map[string]owner{}
	for _, folder := range folders {
		for _, member := range folder.Members {
			other, taken := seen[member.About.Directory]
			if taken && other.Head.Device != member.Head.Device {
				return fmt.Errorf("refused: folder %s, %s: its directory%s is that of %s for folder %s, too. A copied home's "+
					"config.xml is to name the directory of the copied folder", folder.Called(), member.Label(), behind(member.About.Path), other.Label(), other.folder)
			}
			seen[member.About.Directory] = owner{member, folder.Called()}
		}
	}
	return nil
}
