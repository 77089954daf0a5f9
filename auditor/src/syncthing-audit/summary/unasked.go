package summary

import (
	"syncthing-audit/choice"
	"syncthing-audit/print"
	"syncthing-audit/shell"
)

// NotAsked is a folder that a device has and that wasn't audited.
type NotAsked struct {
	Folder string `json:"folder"`
	Label  string `json:"label"`
	Device string `json:"device"`
	InPart bool   `json:"in_part"` // whether the device's part has it
}

// otherNames prints which names weren't audited, where some weren't asked for: all parts have the same.
func (p *printer) otherNames(s *Summary) {
	for _, device := range s.Devices {
		switch {
		case device.asked.IsAll():
			continue
		case s.byNames:
			p.Line("not asked for: %s%s", device.asked.Others(), s.ofAll(device.asked))
		default:
			p.Line("not audited: %s; no part has them%s", device.asked.Others(), s.ofAll(device.asked))
			p.advice([]string{"make the parts without " + device.asked.Unlike(choice.Names{}) + "; or say by " + device.asked.Command() +
				" that only these are to be audited"})
		}
		return
	}
}

// ofAll says, where a slice was asked for, how many names there are in all.
func (s *Summary) ofAll(asked choice.Names) string {
	total := int64(0)
	for _, folder := range s.Folders {
		most := int64(0)
		for _, member := range folder.Devices {
			if member.Indexed > most {
				most = member.Indexed
			}
		}
		total += most
	}
	if !asked.IsOfSlice() || total == 0 {
		return ""
	}
	return " (in all: " + counted(total, "name", "names") + ", by each folder's fullest index)"
}

// notAsked prints which folders of the devices weren't audited, or that this isn't known.
func (p *printer) notAsked(s *Summary) {
	folders := print.Places{}
	for _, notAsked := range s.NotAsked {
		folders.Add(shell.Folder(notAsked.Folder, notAsked.Label), notAsked.Device)
	}
	count := counted(int64(len(folders.Keys)), "folder", "folders")
	words := folders.Joined(p.Called, func(folder, devices string) string { return folder + " on " + devices })
	switch {
	case words == "":
	case s.isByName:
		p.Line("not asked for: %s: %s", count, words)
	default:
		p.Line("not audited: %s that these devices share and no part has: %s", count, words)
		p.advice([]string{"make the parts without --folder, or with it for each of these folders; or name with --folder which ones to audit"})
	}
	p.notTold(s)
}

// notTold prints of which devices it isn't known whether they share other folders. It matters to who didn't choose the folders.
func (p *printer) notTold(s *Summary) {
	if len(s.NotTold) == 0 {
		return
	}
	overWire, older := s.notToldOverWire()
	if len(overWire) > 0 {
		p.Line("not told: which other folders %s may share; over the wire a device tells those alone that it shares with the observer", p.Called.All(overWire))
	}
	if len(older) == 0 {
		return
	}
	parts, them := "its part", "it"
	if len(older) > 1 {
		parts, them = "their parts", "them"
	}
	p.Line("not told: which other folders %s may share; an older syncthing-audit made %s", p.Called.All(older), parts)
	if !s.isByName {
		p.advice([]string{"make " + them + " anew; or name with --folder which ones to audit"})
	}
}
