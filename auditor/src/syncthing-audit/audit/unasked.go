package audit

import (
	"syncthing-audit/finding"
	"syncthing-audit/join"
)

// unaskedOf gives the folders of a device that nobody asked for: those that its part has, and those that it shares and its
// part hasn't. What is refused or left out is told as that.
func unaskedOf(plan *join.Plan, device *join.Device) []finding.Unasked {
	told := map[string]bool{}
	for _, refusal := range plan.Refusals {
		told[refusal.Folder] = true
	}
	var unasked []finding.Unasked
	for _, other := range device.Head.Others {
		if !told[other.ID] && len(other.Devices) > 0 && !plan.IsLeftOut(other.ID, device.Head.Device) {
			unasked = append(unasked, finding.Unasked{ID: other.ID, Label: other.Label})
		}
	}
	for _, folder := range plan.Folders {
		told[folder.ID] = true
	}
	for _, folder := range device.Head.Folders {
		if !told[folder.ID] {
			unasked = append(unasked, finding.Unasked{ID: folder.ID, Label: folder.Label, InPart: true})
		}
	}
	return unasked
}
