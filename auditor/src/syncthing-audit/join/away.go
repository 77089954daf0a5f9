package join

import (
	"golang.org/x/exp/slices"
	"syncthing-audit/part"
	"syncthing-audit/shell"
)

// leaveOutAway leaves out the folders whose directories aren't there at a device: its disk was taken away, say. Where such a folder is paused there, no
// audit refuses that: Syncthing exchanges nothing of it. If other folders are wanted, nobody asked for these.
func (p *Plan) leaveOutAway(wanted []string) {
	for _, device := range p.Devices {
		for _, other := range device.Head.Others {
			isOut := other.Away != "" || other.Apart != ""
			if isOut && (len(wanted) == 0 || slices.Contains(wanted, other.ID)) {
				p.isOut[placeOfFolder{other.ID, device.Head.Device}] = true
				to := &p.LeftOut
				if other.IsStopped || other.Apart != "" {
					to = &p.Refusals
				}
				*to = append(*to, Refusal{Kind: kindOfAway(other), Folder: other.ID, Label: other.Label, Device: device.Head.Device, Name: device.Head.Name, Why: WhyAway(other)})
			}
		}
	}
}

// kindOfAway gives the kind of what is left out.
func kindOfAway(other part.Other) string {
	if other.Apart != "" {
		return part.Moment
	}
	return part.Absent
}

// WhyAway says why a device's part hasn't a folder that is away.
func WhyAway(other part.Other) string {
	if other.Apart != "" {
		return other.Apart
	}
	why := shell.Printable(other.Away) + ": " + other.WhatToDo()
	switch {
	case !other.IsStopped:
		return "it is paused there, and " + why
	case other.IsUnmarked:
		return why + ". Syncthing has stopped the folder there"
	}
	return why + ". Syncthing has stopped the folder there, unless it runs in a container: then " + part.MapIt
}
