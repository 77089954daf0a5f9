package outlook

import (
	"golang.org/x/exp/slices"
	"syncthing-audit/forecast"
	"syncthing-audit/lists"
)

// Versions says whether something that stands on a device, and is on no disk in the end, is among the device's old versions then. They are deleted by age and
// count, so it is lost all the same.
type Versions struct {
	Device string `json:"device"`
	Have   Having `json:"have"`
}

// Having is whether old versions come to have something.
type Having string

const (
	Have         Having = "yes"      // in each order in which it goes
	HaveNot      Having = "no"       // in some order it doesn't go to these
	HaveNone     Having = "none"     // the device keeps no old versions
	HaveExternal Having = "external" // a command takes them, of which nothing is known
	HaveUntold   Having = "not-told" // the device's part doesn't say whether it keeps any
)

// Havings are all of them.
var Havings = []Having{Have, HaveNot, HaveNone, HaveExternal, HaveUntold}

var havings = map[forecast.Versions]Having{forecast.VersionsUntold: HaveUntold, forecast.VersionsNone: HaveNone, forecast.VersionsKept: HaveNot, forecast.VersionsExternal: HaveExternal}

// versionsOf says so of each device on which something stands at a name.
func (j *judge) versionsOf(name string, thing Thing) []Versions {
	return lists.Each(thing.Devices, func(device string) Versions {
		member := placeOf(j.group.Devices, device)
		have := havings[j.group.Devices[member].Versions]
		if have == HaveNot && j.areVersions(name, thing, member) {
			have = Have
		}
		return Versions{device, have}
	})
}

// areVersions says whether it is among a device's old versions at each end at which it is on no disk.
func (j *judge) areVersions(name string, thing Thing, member int) bool {
	for place := range j.ends {
		if !j.staysAt(place, j.sure, name, thing, isSure) && !slices.Contains(j.answer.Ends[place].Versions, forecast.At{Device: member, Name: name}) {
			return false
		}
	}
	return true
}
