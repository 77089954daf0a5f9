package outlook

import (
	"golang.org/x/exp/slices"
	"syncthing-audit/forecast"
	"syncthing-audit/lists"
	"syncthing-audit/part"
)

// dropped gives what .stignore keeps out with (?d) in a directory and goes at some end, on each device by itself. Nobody else is known to have it.
func (j *judge) dropped(name *forecast.Name) []Thing {
	var things []Thing
	for member, ignored := range name.Ignored {
		at := forecast.At{Device: member, Name: name.Name}
		if lists.Has(j.answer.Ends, func(end forecast.End) bool { return slices.Contains(end.Dropped, at) }) {
			device := j.group.Devices[member]
			things = append(things, Thing{Devices: []string{device.ID}, Type: forecast.Directory, Ignored: &part.Count{Names: ignored.Names, Bytes: ignored.Bytes},
				Versions: []Versions{{device.ID, havings[device.Versions]}}})
		}
	}
	return things
}

// holdsIgnored says whether something that .stignore keeps out stands at a name or below it on a device: a step that takes the directory away takes that, too.
func holdsIgnored(group *forecast.World, member int, name string) bool {
	return lists.Has(group.Names, func(other forecast.Name) bool {
		isThere := other.Holds.Has(member) || other.Ignored != nil && other.Ignored[member].Names > 0
		return isThere && (other.Name == name || isBelow(other.Name, name))
	})
}
